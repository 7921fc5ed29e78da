/* One call of the library and no other, so that bench/instructions can count what it takes.
 * Usage: ask FOLDER/             lists the places of all rings, a line each: RING, PLACE and the start of the row in a table, with tabs between
 *        ask FOLDER/ RING        checks the ring's document
 *        ask FOLDER/ RING PLACE  asks about the place */
#include "rings.h"
#include "warnbox.h"

static void list(void) {
    for (size_t i = 0; i < RINGS; i++) {
        for (size_t j = 0; j < PLACES; j++) {
            printf("%zu\t%zu\t| %s | %s | %s | %zu |\n", i, j, rings[i].kind, rings[i].pairs, places[j].name, edges_at(&rings[i], places[j].latitude));
        }
    }
}

int main(int argc, char **argv) {
    demand(argc >= 2 && argc <= 4, "usage: ask FOLDER/ [RING [PLACE]]", "ask");
    for (size_t i = 0; i < RINGS; i++) rings[i].document = load(argv[1], rings[i].document_name, &rings[i].length);
    if (argc == 2) {
        list();
        return 0;
    }
    size_t i = strtoul(argv[2], NULL, 10), j = argc == 4 ? strtoul(argv[3], NULL, 10) : 0, value;
    demand(i < RINGS && j < PLACES, "no such ring or place", "ask");
    const struct ring *ring = &rings[i];
    const struct place *place = &places[j];
    if (argc == 3) {
        demand(warnbox_check_document(ring->document, ring->length, &value) == 0 && value == 1, "refused by the library", ring->document_name);
    } else {
        uint8_t refusal = warnbox_document_place(ring->document, ring->length, 1, place->latitude, place->longitude, &value);
        demand(refusal == 0 && value == (place->inside ? WARNBOX_INSIDE : WARNBOX_OUTSIDE), "a wrong answer from the library", place->name);
    }
    return 0;
}
