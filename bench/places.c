/* Whether a place lies in a polygon, from the text to the answer: the library beside its check of the document, and beside GEOS. With -DBEFORE also
 * the library before, whose functions bench/run names before_...
 * Usage: places FOLDER/ */
#include <geos_c.h>

#include "rings.h"
#include "warnbox.h"

struct library {
    const char *name;
    __typeof__(warnbox_check_document) *check;
    __typeof__(warnbox_document_place) *place;
};

#ifdef BEFORE
extern __typeof__(warnbox_check_document) before_warnbox_check_document;
extern __typeof__(warnbox_document_place) before_warnbox_document_place;
#endif

static const struct library libraries[] = {
    {"the library", warnbox_check_document, warnbox_document_place},
#ifdef BEFORE
    {"the library before", before_warnbox_check_document, before_warnbox_document_place},
#endif
};
enum { LIBRARIES = sizeof libraries / sizeof *libraries };

struct question { const struct library *library; const struct ring *ring; const struct place *place; };
static struct question questions[RINGS][PLACES][LIBRARIES];

/* A place's own check, though it is that of all places of the ring, is timed beside it. */
enum { GEOS, PREPARED, CHECK, PLACE, CHECK_BEFORE, PLACE_BEFORE };
enum { RUNNERS = CHECK + 2 * LIBRARIES };
static struct runner runners[RINGS][PLACES][RUNNERS];

static GEOSContextHandle_t geos;

static bool library_says(const struct library *library, const struct ring *ring, int32_t latitude, int32_t longitude) {
    size_t value;
    uint8_t refusal = library->place(ring->document, ring->length, 1, latitude, longitude, &value);
    demand(refusal == 0 && value != WARNBOX_NO_SHAPE, "no answer to a place", library->name);
    return value == WARNBOX_INSIDE;
}

static bool geos_says(const struct ring *ring, int32_t latitude, int32_t longitude, bool prepared) {
    GEOSGeometry *polygon = GEOSGeomFromWKT_r(geos, ring->wkt);
    GEOSGeometry *point = GEOSGeom_createPointFromXY_r(geos, longitude / 1e7, latitude / 1e7);
    demand(polygon != NULL && point != NULL, "not read by GEOS", ring->wkt_name);
    char answer;
    if (prepared) {
        const GEOSPreparedGeometry *ready = GEOSPrepare_r(geos, polygon);
        answer = GEOSPreparedIntersects_r(geos, ready, point);
        GEOSPreparedGeom_destroy_r(geos, ready);
    } else {
        answer = GEOSIntersects_r(geos, polygon, point);
    }
    GEOSGeom_destroy_r(geos, point);
    GEOSGeom_destroy_r(geos, polygon);
    demand(answer == 0 || answer == 1, "no answer from GEOS", ring->wkt_name);
    return answer == 1;
}

/* What is timed. Each also demands the answer, in every pass. */
static void check(void *of) {
    struct question *q = of;
    size_t parts;
    uint8_t refusal = q->library->check(q->ring->document, q->ring->length, &parts);
    demand(refusal == 0 && parts == 1, "a document is refused", q->library->name);
}
static void ask_library(void *of) {
    struct question *q = of;
    bool answer = library_says(q->library, q->ring, q->place->latitude, q->place->longitude);
    demand(answer == q->place->inside, "a wrong answer to a place", q->library->name);
}
static void ask_geos(void *of) {
    struct question *q = of;
    demand(geos_says(q->ring, q->place->latitude, q->place->longitude, false) == q->place->inside, "a wrong answer from GEOS", q->place->name);
}
static void ask_prepared(void *of) {
    struct question *q = of;
    demand(geos_says(q->ring, q->place->latitude, q->place->longitude, true) == q->place->inside, "a wrong answer from GEOS", q->place->name);
}

static void load_ring(struct ring *ring, const char *folder) {
    ring->document = load(folder, ring->document_name, &ring->length);
    ring->wkt = (const char *)load(folder, ring->wkt_name, &ring->wkt_length);
    GEOSGeometry *polygon = GEOSGeomFromWKT_r(geos, ring->wkt);
    demand(polygon != NULL && GEOSisValid_r(geos, polygon) == 1, "no valid polygon, by GEOS", ring->wkt_name);
    GEOSGeom_destroy_r(geos, polygon);
}

/* Asks all about a grid over a ring and around it, off the ring's own four decimals; gives the number of places. */
static int compare_on_grid(const struct ring *ring) {
    int asked = 0;
    for (int32_t latitude = 450012347; latitude < 470000000; latitude += 1000000) {
        for (int32_t longitude = 100012343; longitude < 120000000; longitude += 1000000, asked++) {
            bool inside = geos_says(ring, latitude, longitude, true);
            for (size_t i = 0; i < LIBRARIES; i++) {
                bool answer = library_says(&libraries[i], ring, latitude, longitude);
                demand(answer == inside, "another answer to a place than GEOS gives", libraries[i].name);
            }
        }
    }
    return asked;
}

static void set_runners(size_t i, size_t j) {
    struct runner *of_place = runners[i][j];
    for (size_t k = 0; k < LIBRARIES; k++) {
        questions[i][j][k] = (struct question){&libraries[k], &rings[i], &places[j]};
        of_place[CHECK + 2 * k] = (struct runner){.run = check, .of = &questions[i][j][k]};
        of_place[PLACE + 2 * k] = (struct runner){.run = ask_library, .of = &questions[i][j][k]};
    }
    of_place[GEOS] = (struct runner){.run = ask_geos, .of = &questions[i][j][0]};
    of_place[PREPARED] = (struct runner){.run = ask_prepared, .of = &questions[i][j][0]};
}

static double times(const struct runner *of_place, int runner, int other) { return of_place[runner].least / of_place[other].least; }

static void print_beside_check(void) {
    printf("### A place in a polygon, beside the check of its document\n\n");
    printf("| ring | pairs | place | edges at its latitude | `warnbox_check_document` | `warnbox_document_place` | times the check |");
    if (LIBRARIES > 1) printf(" the check before | the place before | times the check before | times as fast now |");
    printf("\n|---|---:|---|---:|---:|---:|---:|%s\n", LIBRARIES > 1 ? "---:|---:|---:|---:|" : "");
    for (size_t i = 0; i < RINGS; i++) {
        for (size_t j = 0; j < PLACES; j++) {
            const struct runner *r = runners[i][j];
            printf("| %s | %s | %s | %zu | %.2f µs | %.2f µs | %.2f |", rings[i].kind, rings[i].pairs, places[j].name,
                   edges_at(&rings[i], places[j].latitude), r[CHECK].least / 1e3, r[PLACE].least / 1e3, times(r, PLACE, CHECK));
            if (LIBRARIES > 1) {
                printf(" %.2f µs | %.2f µs | %.2f | %.2f |", r[CHECK_BEFORE].least / 1e3, r[PLACE_BEFORE].least / 1e3,
                       times(r, PLACE_BEFORE, CHECK_BEFORE), times(r, PLACE_BEFORE, PLACE));
            }
            printf("\n");
        }
    }
}

static void print_beside_geos(void) {
    printf("\n### A place in a polygon, from the text (GEOS %s)\n\n", GEOSversion());
    printf("| ring | pairs | document, bytes | WKT, bytes | place | `warnbox_document_place` | a byte | GEOS | times the library | GEOS, prepared | times the library |\n");
    printf("|---|---:|---:|---:|---|---:|---:|---:|---:|---:|---:|\n");
    for (size_t i = 0; i < RINGS; i++) {
        for (size_t j = 0; j < PLACES; j++) {
            const struct runner *r = runners[i][j];
            printf("| %s | %s | %zu | %zu | %s | %.2f µs | %.2f ns | %.2f µs | %.2f | %.2f µs | %.2f |\n", rings[i].kind, rings[i].pairs,
                   rings[i].length, rings[i].wkt_length, places[j].name, r[PLACE].least / 1e3, r[PLACE].least / (double)rings[i].length,
                   r[GEOS].least / 1e3, times(r, GEOS, PLACE), r[PREPARED].least / 1e3, times(r, PREPARED, PLACE));
        }
    }
}

static void print_wishes(void) {
    double beside_check = 0, beside_geos = 1e18;
    for (size_t i = 0; i < RINGS; i++) {
        for (size_t j = 0; j < PLACES; j++) {
            const struct runner *r = runners[i][j];
            if (i == COAST_4000 && times(r, PLACE, CHECK) > beside_check) beside_check = times(r, PLACE, CHECK);
            if (times(r, GEOS, PLACE) < beside_geos) beside_geos = times(r, GEOS, PLACE);
            if (times(r, PREPARED, PLACE) < beside_geos) beside_geos = times(r, PREPARED, PLACE);
        }
    }
    wishes();
    wish_at_most("asking about a place, in times of checking the document", "coast of 4,000 pairs, where it does worst", 1.5, beside_check);
    wish("a place in a polygon, times as fast as GEOS", "where it does worst", 1, beside_geos);
}

int main(int argc, char **argv) {
    demand(argc == 2, "usage: places FOLDER/", "places");
    geos = GEOS_init_r();
    int asked = 0;
    for (size_t i = 0; i < RINGS; i++) {
        load_ring(&rings[i], argv[1]);
        asked += compare_on_grid(&rings[i]);
        for (size_t j = 0; j < PLACES; j++) set_runners(i, j);
    }
    race(runners[0][0], RINGS * PLACES * RUNNERS);

    print_beside_check();
    print_beside_geos();
    printf("\n%s gave the same answers to these, and to %d places of a grid.\n", LIBRARIES > 1 ? "Both libraries and GEOS" : "Both", asked);
    print_wishes();
    growths("a byte", "coast of 1,000 pairs", "of 4,000");
    for (size_t j = 0; j < PLACES; j++) {
        growth(places[j].name, runners[COAST_1000][j][PLACE].least / (double)rings[COAST_1000].length,
               runners[COAST_4000][j][PLACE].least / (double)rings[COAST_4000].length);
    }
    return 0;
}
