/* Checking documents, and drawing the sentences of their parts: the library beside expat and libxml2.
 * Usage: documents SCHEMA FOLDER/ */
#include <expat.h>
#include <glob.h>
#include <libxml/parser.h>
#include <libxml/xmlschemas.h>

#include "clock.h"
#include "warnbox.h"

enum { MOST = 64 };

struct row {
    const char *name, *files;
    double wanted;       /* how many times as fast as expat the check is to be; 0: nothing was wished */
    size_t count, bytes; /* files, and bytes of all */
    struct { uint8_t *bytes; size_t length, parts; } documents[MOST];
};

static struct row rows[] = {
    {"real alerts of 1 to 3 KB, summed", "real-*.xml", 3},
    {"generated, 1 KB", "alert-1.xml", 3},
    {"generated, 8 KB", "alert-8.xml", 3},
    {"generated, 20 KB", "alert-20.xml", 3},
    {"generated, 64 KB", "alert-64.xml", 0},
    {"64 KB, mostly a polygon", "polygon.xml", 1},
};
enum { KB_8 = 2, KB_64 = 4, ROWS = 6 };
enum { CHECK, EXPAT, LIBXML2, FIRST, LAST, RUNNERS };

static xmlSchemaValidCtxtPtr validator;

static void load_row(struct row *row, const char *folder) {
    char pattern[4096];
    glob_t found;
    snprintf(pattern, sizeof pattern, "%s%s", folder, row->files);
    demand(glob(pattern, 0, NULL, &found) == 0 && found.gl_pathc <= MOST, "no such files, or too many", pattern);
    for (row->count = 0; row->count < found.gl_pathc; row->count++) {
        size_t i = row->count;
        size_t value;
        row->documents[i].bytes = load("", found.gl_pathv[i], &row->documents[i].length);
        demand(warnbox_check_document(row->documents[i].bytes, row->documents[i].length, &value) == 0, "refused by the library", found.gl_pathv[i]);
        row->documents[i].parts = value;
        row->bytes += row->documents[i].length;
    }
    globfree(&found);
}

/* What is timed. Each also demands the answer, in every pass. */

static void check(void *of) {
    struct row *row = of;
    for (size_t i = 0; i < row->count; i++) {
        size_t value;
        uint8_t refusal = warnbox_check_document(row->documents[i].bytes, row->documents[i].length, &value);
        demand(refusal == 0 && value == row->documents[i].parts, "refused by the library", row->name);
    }
}

static void expat(void *of) {
    struct row *row = of;
    for (size_t i = 0; i < row->count; i++) {
        XML_Parser parser = XML_ParserCreate(NULL);
        enum XML_Status status = XML_Parse(parser, (const char *)row->documents[i].bytes, (int)row->documents[i].length, 1);
        XML_ParserFree(parser);
        demand(status == XML_STATUS_OK, "refused by expat", row->name);
    }
}

static void libxml2(void *of) {
    struct row *row = of;
    for (size_t i = 0; i < row->count; i++) {
        xmlDocPtr tree = xmlReadMemory((const char *)row->documents[i].bytes, (int)row->documents[i].length, "alert.xml", NULL, 0);
        demand(tree != NULL && xmlSchemaValidateDoc(validator, tree) == 0, "refused by libxml2", row->name);
        xmlFreeDoc(tree);
    }
}

static void sentences(struct row *row, bool last) {
    for (size_t i = 0; i < row->count; i++) {
        uint8_t buffer[651];
        size_t value;
        size_t parts = row->documents[i].parts, part = last || parts == 0 ? parts : 1;
        uint8_t refusal = warnbox_document_sentence(buffer, sizeof buffer, 0, row->documents[i].bytes, row->documents[i].length, part, &value);
        demand(refusal == 0 && value > 0 && buffer[value - 1] == '\n', "no sentence", row->name);
    }
}
static void first_sentence(void *of) { sentences(of, false); }
static void last_sentence(void *of) { sentences(of, true); }

int main(int argc, char **argv) {
    demand(argc == 3, "usage: documents SCHEMA FOLDER/", "documents");
    xmlSchemaPtr schema = xmlSchemaParse(xmlSchemaNewParserCtxt(argv[1]));
    demand(schema != NULL, "not a schema", argv[1]);
    validator = xmlSchemaNewValidCtxt(schema);

    static struct runner runners[ROWS][RUNNERS];
    for (size_t i = 0; i < ROWS; i++) {
        load_row(&rows[i], argv[2]);
        runners[i][CHECK] = (struct runner){.run = check, .of = &rows[i]};
        runners[i][EXPAT] = (struct runner){.run = expat, .of = &rows[i]};
        runners[i][LIBXML2] = (struct runner){.run = libxml2, .of = &rows[i]};
        runners[i][FIRST] = (struct runner){.run = first_sentence, .of = &rows[i]};
        runners[i][LAST] = (struct runner){.run = last_sentence, .of = &rows[i]};
    }
    race(runners[0], ROWS * RUNNERS);
    double least[ROWS][RUNNERS], byte[ROWS][RUNNERS], times[ROWS][RUNNERS]; /* nanoseconds, nanoseconds a byte, times the check */
    for (size_t i = 0; i < ROWS; i++) {
        for (size_t j = 0; j < RUNNERS; j++) {
            least[i][j] = runners[i][j].least;
            byte[i][j] = least[i][j] / (double)rows[i].bytes;
            times[i][j] = least[i][j] / least[i][CHECK];
        }
    }

    printf("### Checking a document (%s, libxml2 %s)\n\n", XML_ExpatVersion(), LIBXML_DOTTED_VERSION);
    printf("| documents | files | bytes | `warnbox_check_document` | a byte | expat | a byte | times the check | libxml2 with XSD | a byte | times the check |\n");
    printf("|---|---:|---:|---:|---:|---:|---:|---:|---:|---:|---:|\n");
    for (size_t i = 0; i < ROWS; i++) {
        printf("| %s | %zu | %zu | %.2f µs | %.2f ns | %.2f µs | %.2f ns | %.2f | %.2f µs | %.2f ns | %.2f |\n", rows[i].name, rows[i].count,
               rows[i].bytes, least[i][CHECK] / 1e3, byte[i][CHECK], least[i][EXPAT] / 1e3, byte[i][EXPAT], times[i][EXPAT],
               least[i][LIBXML2] / 1e3, byte[i][LIBXML2], times[i][LIBXML2]);
    }
    wishes();
    for (size_t i = 0; i < ROWS; i++) {
        if (rows[i].wanted) wish("the check, times as fast as expat", rows[i].name, rows[i].wanted, times[i][EXPAT]);
    }
    for (size_t i = 0; i < ROWS; i++) wish("the check, times as fast as libxml2 with XSD", rows[i].name, 10, times[i][LIBXML2]);

    printf("\n### The sentence of a part (`warnbox_document_sentence`)\n\n");
    printf("| documents | files | parts | of the first part | times the check | of the last part | times the check | a byte |\n");
    printf("|---|---:|---:|---:|---:|---:|---:|---:|\n");
    for (size_t i = 0; i < ROWS; i++) {
        size_t parts = 0;
        for (size_t j = 0; j < rows[i].count; j++) parts += rows[i].documents[j].parts;
        printf("| %s | %zu | %zu | %.2f µs | %.2f | %.2f µs | %.2f | %.2f ns |\n", rows[i].name, rows[i].count, parts, least[i][FIRST] / 1e3,
               times[i][FIRST], least[i][LAST] / 1e3, times[i][LAST], byte[i][LAST]);
    }
    growths("a byte", "8 KB", "64 KB");
    growth("the check", byte[KB_8][CHECK], byte[KB_64][CHECK]);
    growth("the sentence of the last part", byte[KB_8][LAST], byte[KB_64][LAST]);
    return 0;
}
