/* The rings, and the places that are asked about: for places.c and ask.c. */
#ifndef RINGS_H
#define RINGS_H

#include <string.h>

#include "clock.h"

/* A ring, as the polygon of a document's part 1 and as WKT; inputs.py draws it, around 46 north, 11 east. */
struct ring {
    const char *kind, *pairs, *document_name, *wkt_name;
    uint8_t *document;
    size_t length, wkt_length;
    const char *wkt;
};

static struct ring rings[] = {
    {.kind = "coast", .pairs = "100", .document_name = "coast-100.xml", .wkt_name = "coast-100.wkt"},
    {.kind = "coast", .pairs = "1,000", .document_name = "coast-1000.xml", .wkt_name = "coast-1000.wkt"},
    {.kind = "coast", .pairs = "4,000", .document_name = "coast-4000.xml", .wkt_name = "coast-4000.wkt"},
    {.kind = "comb", .pairs = "4,000", .document_name = "comb-4000.xml", .wkt_name = "comb-4000.wkt"},
};
enum { COAST_100, COAST_1000, COAST_4000, COMB_4000, RINGS };

/* Places in units of 1e-7 degree; what is said of them holds for each ring. The outside ones: in the ring's bounding box, where GEOS can't answer
 * by the box alone, and far off. The first two are level with all teeth of the comb, in a tooth and between two. */
static const struct place { const char *name; int32_t latitude, longitude; bool inside; } places[] = {
    {"inside", 460123457, 110123457, true},
    {"outside, in the box", 466512347, 116512347, false},
    {"far outside", -335012347, -706512347, false},
};
enum { PLACES = 3 };

/* Reads a number that has four decimals and no sign, in units of 1e-7 degree; *text is then behind it. */
static inline int32_t read_degrees(char **text) {
    char *point;
    long whole = strtol(*text, &point, 10);
    demand(*point == '.', "not a number with four decimals", *text);
    long decimals = strtol(point + 1, text, 10);
    demand(*text == point + 5, "not a number with four decimals", point);
    return (int32_t)(whole * 10000000 + decimals * 1000);
}

/* How many edges of a ring can't be skipped for their latitudes alone: all but those whose ends lie both above the latitude or both below it. */
static inline size_t edges_at(const struct ring *ring, int32_t latitude) {
    static const char tag[] = "<polygon>";
    char *text = strstr((char *)ring->document, tag);
    demand(text != NULL, "no polygon", ring->document_name);
    text += strlen(tag) - 1; /* before each pair stands one byte: the tag's end or a space */
    size_t edges = 0;
    int before = 0; /* the side of the pair before: 1 above, -1 below, 0 on the latitude */
    for (size_t pairs = 0; *text != '<'; pairs++) {
        text++;
        int32_t north = read_degrees(&text);
        text++;
        read_degrees(&text);
        int side = (north > latitude) - (north < latitude);
        if (pairs > 0 && (side == 0 || side != before)) edges++;
        before = side;
    }
    return edges;
}

#endif
