/* Why a part says inside or outside: asking for the reason beside asking about the place alone, and beside the check of the document. With -DBEFORE also
 * asking about the place with the library before, whose functions bench/run names before_...
 * Usage: reasons FOLDER/ */
#include "rings.h"
#include "warnbox.h"

/* A document whose part 1 is asked. */
struct document {
    char name[32];
    size_t shapes;
    const uint8_t *bytes;
    size_t length;
};

/* A place, and what is to be said about it. */
struct question {
    struct document document;
    struct place place;
    struct warnbox_why why;
};

enum { REAL_PLACES = 2, AREA_PLACES = 3, QUESTIONS = REAL_PLACES + RINGS * PLACES + 2 * AREA_PLACES };
static struct question questions[QUESTIONS];
static size_t count;

/* ---- what is timed; each also demands the answer, in every pass */

static bool is_side(const struct question *q, uint8_t refusal, size_t side) {
    return refusal == 0 && side == (q->place.inside ? WARNBOX_INSIDE : WARNBOX_OUTSIDE);
}

static void check(void *of) {
    const struct question *q = of;
    size_t parts;
    uint8_t refusal = warnbox_check_document(q->document.bytes, q->document.length, &parts);
    demand(refusal == 0 && parts == 1, "a document is refused", q->document.name);
}
static void ask_place(void *of) {
    const struct question *q = of;
    size_t side;
    uint8_t refusal = warnbox_document_place(q->document.bytes, q->document.length, 1, q->place.latitude, q->place.longitude, &side);
    demand(is_side(q, refusal, side), "a wrong answer to a place", q->document.name);
}
static void ask_why(void *of) {
    const struct question *q = of;
    size_t side;
    struct warnbox_why why;
    uint8_t refusal = warnbox_document_why(q->document.bytes, q->document.length, 1, q->place.latitude, q->place.longitude, &why, &side);
    demand(is_side(q, refusal, side) && memcmp(&why, &q->why, sizeof why) == 0, "a wrong reason", q->document.name);
}
#ifdef BEFORE
extern __typeof__(warnbox_document_place) before_warnbox_document_place;
static void ask_before(void *of) {
    const struct question *q = of;
    size_t side;
    uint8_t refusal = before_warnbox_document_place(q->document.bytes, q->document.length, 1, q->place.latitude, q->place.longitude, &side);
    demand(is_side(q, refusal, side), "a wrong answer to a place from the library before", q->document.name);
}
#endif

static void (*const runs[])(void *) = {
    check, ask_place, ask_why,
#ifdef BEFORE
    ask_before,
#endif
};
enum { CHECK, PLACE, WHY, PLACE_BEFORE };
#define RUNNERS (sizeof runs / sizeof *runs)
static struct runner runners[QUESTIONS][RUNNERS];

/* ---- the questions */

/* Adds a place of a document; where it is inside, the reason is the shape that is given. */
static void add(struct document document, struct place place, struct warnbox_why shape) {
    demand(count < QUESTIONS, "too many questions", document.name);
    questions[count] = (struct question){document, place, place.inside ? shape : (struct warnbox_why){.count = document.shapes}};
    for (size_t k = 0; k < RUNNERS; k++) runners[count][k] = (struct runner){.run = runs[k], .of = &questions[count]};
    count++;
}

static const struct warnbox_why first = {1, WARNBOX_POLYGON, 1, 0};

static void add_real(const char *folder) {
    static const struct place real_places[REAL_PLACES] = {{"inside", 385000000, -1199500000, true}, {"outside", 383400000, -1200000000, false}};
    struct document document = {.name = "real alert", .shapes = 1};
    document.bytes = load(folder, "real-007-I2.xml", &document.length);
    for (size_t j = 0; j < REAL_PLACES; j++) add(document, real_places[j], first);
}

static void add_ring(const char *folder, const struct ring *ring) {
    struct document document = {.shapes = 1};
    snprintf(document.name, sizeof document.name, "%s of %s pairs", ring->kind, ring->pairs);
    document.bytes = load(folder, ring->document_name, &document.length);
    for (size_t j = 0; j < PLACES; j++) add(document, places[j], first);
}

/* Each area has two polygons and two circles. The first shape is around 10 north, 20 east; the last area is a quarter of a degree farther north for each
 * area before it, and its last circle around 23 east (inputs.py). */
static void add_areas(const char *folder, const char *file, size_t areas) {
    const struct place in_first = {"in the first shape", 100000000, 200000000, true};
    const struct place in_last = {"in the last shape", 100000000 + (int32_t)(areas - 1) * 2500000, 230000000, true};
    struct document document = {.shapes = 4 * areas};
    snprintf(document.name, sizeof document.name, "%zu areas", areas);
    document.bytes = load(folder, file, &document.length);
    add(document, in_first, first);
    add(document, in_last, (struct warnbox_why){areas, WARNBOX_CIRCLE, 2, 0});
    add(document, places[PLACES - 1], first);
}

/* ---- the tables */

static void print_rows(void) {
    printf("### Why a place is inside or outside, beside whether it is\n\n");
    printf("| document | bytes | shapes | place | `warnbox_check_document` | `warnbox_document_place` | `warnbox_document_why` | times the check | times the place |");
    if (RUNNERS > PLACE_BEFORE) printf(" the place before | times the place now |");
    printf("\n|---|---:|---:|---|---:|---:|---:|---:|---:|%s\n", RUNNERS > PLACE_BEFORE ? "---:|---:|" : "");
    for (size_t i = 0; i < count; i++) {
        const struct question *q = &questions[i];
        const struct runner *r = runners[i];
        printf("| %s | %zu | %zu | %s | %.2f µs | %.2f µs | %.2f µs | %.2f | %.2f |", q->document.name, q->document.length, q->document.shapes,
               q->place.name, r[CHECK].least / 1e3, r[PLACE].least / 1e3, r[WHY].least / 1e3, r[WHY].least / r[CHECK].least,
               r[WHY].least / r[PLACE].least);
        if (RUNNERS > PLACE_BEFORE) printf(" %.2f µs | %.2f |", r[PLACE_BEFORE].least / 1e3, r[PLACE_BEFORE].least / r[PLACE].least);
        printf("\n");
    }
}

static double cost(size_t question) { return runners[question][WHY].least / (double)questions[question].document.length; }

int main(int argc, char **argv) {
    demand(argc == 2, "usage: reasons FOLDER/", "reasons");
    add_real(argv[1]);
    for (size_t i = 0; i < RINGS; i++) add_ring(argv[1], &rings[i]);
    add_areas(argv[1], "areas-16.xml", 16);
    add_areas(argv[1], "areas-128.xml", 128);
    race(runners[0], count * RUNNERS);

    print_rows();
    growths("a byte", "16 areas", "128");
    for (size_t i = count - 2 * AREA_PLACES; i < count - AREA_PLACES; i++) growth(questions[i].place.name, cost(i), cost(i + AREA_PLACES));
    return 0;
}
