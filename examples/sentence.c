/* Reads a CAP document from standard input and prints the sentence of each part, to the first refusal; then reads its own sentences back.
 *
 *     tests/archive.sh && cc -Iinclude examples/sentence.c target/staticlib/libwarnbox.a -o target/sentence
 *     target/sentence < tests/vectors/007-I2.xml
 */
#include <stdio.h>

#include "warnbox.h"

static uint8_t document[WARNBOX_LONGEST_DOCUMENT + 1]; /* a longer one is refused by its first bytes alone */
static uint8_t text[WARNBOX_MOST_PARTS * WARNBOX_LONGEST_SENTENCE];

static void print_refusal(uint8_t number, size_t offset) {
    uint8_t name[WARNBOX_LONGEST_NAME];
    size_t length = 0;
    if (warnbox_refusal_name(name, sizeof name, 0, number, &length) != 0) length = 0;
    printf("refused %u at %zu: %.*s\n", (unsigned)number, offset, (int)length, (const char *)name);
}

/* Writes the sentences of the parts into the text, to the first refusal; gives their end. */
static size_t write_sentences(size_t length, size_t parts) {
    size_t end = 0, value = 0;
    for (size_t part = parts == 0 ? 0 : 1; part <= parts; part++) {
        uint8_t number = warnbox_document_sentence(text, sizeof text, end, document, length, part, &value);
        if (number != 0) {
            fwrite(text, 1, end, stdout);
            print_refusal(number, value);
            return end;
        }
        end = value;
    }
    fwrite(text, 1, end, stdout);
    return end;
}

int main(void) {
    size_t length = fread(document, 1, sizeof document, stdin);
    size_t value = 0;
    uint8_t number = warnbox_check_document(document, length, &value);
    if (number != 0) {
        print_refusal(number, value);
        return 1;
    }
    size_t end = write_sentences(length, value);
    number = warnbox_count(text, end, &value);
    if (number != 0) {
        print_refusal(number, value);
        return 1;
    }
    printf("(%zu read back)\n", value);
    return 0;
}
