/* Calls each function of include/warnbox.h on empty inputs, with null where a length is 0, and on small tables and documents. It uses nothing but the
 * header, so that it compiles in every dialect of tests/c_interface.sh; what it returns is the number of the first check that fails, 0 for none. */
#include "warnbox.h"

#define CHECK(holds)               \
    do {                           \
        checks++;                  \
        if (!(holds)) return checks; \
    } while (0)

static int checks = 0;

static int check_texts(void) {
    struct warnbox_sheet sheet = {WARNBOX_WARN, {{1, 2, 3, 4, 5, 6, 7, 8, 9, 10, 11, 12, 13, 14}}};
    size_t value = 7;
    CHECK(warnbox_version() == WARNBOX_VERSION);
    CHECK(warnbox_refusal_name(NULL, 0, 0, WARNBOX_TIME, &value) == WARNBOX_NO_ROOM && value == 0);
    CHECK(warnbox_refusal_name(NULL, 0, 0, WARNBOX_NO_ROOM_FOR_LIST, &value) == WARNBOX_NO_ROOM);
    CHECK(warnbox_refusal_name(NULL, 0, 0, 0, &value) == WARNBOX_NOT_THERE);
    CHECK(warnbox_write(NULL, 0, 0, NULL, 0, &sheet, &value) == WARNBOX_NOT_READ_BACKS);
    CHECK(warnbox_count(NULL, 0, &value) == 0 && value == 0);
    CHECK(warnbox_read_back(NULL, 0, 1, &sheet, &value) == WARNBOX_NOT_THERE && sheet.facts.warn.urgent == 1);
    CHECK(warnbox_check_document(NULL, 0, &value) != 0);
    CHECK(warnbox_document_sentence(NULL, 0, 0, NULL, 0, 1, &value) != 0);
    CHECK(warnbox_document_sheet(NULL, 0, 1, &sheet, &value) != 0 && sheet.facts.warn.response == 14);
    CHECK(warnbox_document_place(NULL, 0, 1, 0, 0, &value) != 0);
    return 0;
}

/* ---- why a part holds a place */

#define RATED "<category>Met</category><event/><urgency>Past</urgency><severity>Minor</severity><certainty>Likely</certainty>"
#define PART(areas) "<info>" RATED areas "</info>"
#define AREA(shapes) "<area><areaDesc/>" shapes "</area>"
#define SQUARE "<polygon>0,0 0,1 1,1 1,0 0,0</polygon>"
#define HEAD                                                                                          \
    "<alert xmlns='urn:oasis:names:tc:emergency:cap:1.2'><identifier>A</identifier><sender>b</sender>" \
    "<sent>2002-05-24T16:49:00-07:00</sent><status>Actual</status><msgType>Alert</msgType><scope>Public</scope>"

/* Part 1 has a polygon and a circle in area 2, part 2 areas without shapes, part 3 two polygons in area 1 and two circles in area 3. */
static const char shapes[] = HEAD PART(AREA("") AREA(SQUARE "<circle>0.5,0.5 1</circle>")) PART(AREA("") AREA(""))
    PART(AREA("<polygon>5,5 5,6 6,5 5,5</polygon>" SQUARE) AREA("") AREA("<circle>9,9 0</circle><circle>8,8 111</circle>")) "</alert>";
static const char no_parts[] = HEAD "</alert>";
static const char refused[] = HEAD PART(AREA(SQUARE) "<bad/>") "</alert>";
enum { PARTS = 3, DEGREE = 10000000, NORTH = 90 * DEGREE, WEST = -180 * DEGREE };

/* What warnbox_document_why says of a place and leaves, and whether warnbox_document_place says the same. */
struct said {
    uint8_t number;
    size_t value;
    struct warnbox_why why;
    int same;
};

static struct said ask(const uint8_t *document, size_t length, size_t part, int32_t latitude, int32_t longitude) {
    struct said said = {0, 7, {91, 92, 93, 94}, 0};
    size_t value = 8;
    said.number = warnbox_document_why(document, length, part, latitude, longitude, &said.why, &said.value);
    said.same = warnbox_document_place(document, length, part, latitude, longitude, &value) == said.number && value == said.value;
    return said;
}
#define ASK(document, part, latitude, longitude) ask((const uint8_t *)(document), sizeof(document) - 1, part, latitude, longitude)

static int is_why(struct warnbox_why why, size_t area, size_t kind, size_t shape, size_t count) {
    return why.area == area && why.kind == kind && why.shape == shape && why.count == count;
}
static int is_refused(struct said said, uint8_t number) { return said.same && said.number == number && is_why(said.why, 91, 92, 93, 94); }
static int is_inside(struct said said, size_t area, size_t kind, size_t shape) {
    return said.same && said.number == 0 && said.value == WARNBOX_INSIDE && is_why(said.why, area, kind, shape, 0);
}
static int is_outside(struct said said, size_t count) {
    return said.same && said.number == 0 && said.value == WARNBOX_OUTSIDE && is_why(said.why, 0, 0, 0, count);
}
static int is_no_shape(struct said said) {
    return said.same && said.number == 0 && said.value == WARNBOX_NO_SHAPE && is_why(said.why, 0, 0, 0, 0);
}

/* The document's own, then the part, then the place. */
static int check_why_refused(void) {
    CHECK(is_refused(ask(NULL, 0, 1, 0, 0), WARNBOX_XML_FORM));
    CHECK(is_refused(ASK(refused, 1, 0, 0), WARNBOX_ELEMENT) && ASK(refused, 1, 0, 0).value > 0);
    CHECK(is_refused(ASK(refused, 9, NORTH + 1, 0), WARNBOX_ELEMENT));
    CHECK(is_refused(ASK(shapes, 0, 0, 0), WARNBOX_NOT_THERE) && ASK(shapes, 0, 0, 0).value == 0);
    CHECK(is_refused(ASK(shapes, PARTS + 1, NORTH + 1, 0), WARNBOX_NOT_THERE));
    CHECK(is_refused(ASK(no_parts, 1, 0, 0), WARNBOX_NOT_THERE));
    CHECK(is_refused(ASK(shapes, 1, NORTH + 1, 0), WARNBOX_PLACE_OUT_OF_RANGE) && ASK(shapes, 1, NORTH + 1, 0).value == 0);
    CHECK(is_refused(ASK(shapes, 2, 0, INT32_MIN), WARNBOX_PLACE_OUT_OF_RANGE));
    CHECK(is_refused(ASK(no_parts, 0, INT32_MAX, 0), WARNBOX_PLACE_OUT_OF_RANGE));
    return 0;
}

static int check_why(void) {
    CHECK(is_inside(ASK(shapes, 1, DEGREE / 2, DEGREE / 2), 2, WARNBOX_POLYGON, 1)); /* the circle holds it too */
    CHECK(is_inside(ASK(shapes, 1, 0, DEGREE), 2, WARNBOX_POLYGON, 1));              /* a vertex */
    CHECK(is_outside(ASK(shapes, 1, 0, DEGREE + 1), 2));
    CHECK(is_no_shape(ASK(shapes, 2, 0, 0)));
    CHECK(is_inside(ASK(shapes, 3, DEGREE / 2, DEGREE / 2), 1, WARNBOX_POLYGON, 2));
    CHECK(is_inside(ASK(shapes, 3, 9 * DEGREE, 9 * DEGREE), 3, WARNBOX_CIRCLE, 1));
    CHECK(is_inside(ASK(shapes, 3, 8 * DEGREE, 8 * DEGREE), 3, WARNBOX_CIRCLE, 2));
    CHECK(is_outside(ASK(shapes, 3, -NORTH, WEST), 4));
    CHECK(is_no_shape(ASK(no_parts, 0, 0, 0)));
    return 0;
}

/* Over a grid of places, of all parts and of those before and behind them, warnbox_document_place says the same. */
static int check_same(void) {
    int others = 0;
    for (size_t part = 0; part <= PARTS + 1; part++) {
        for (int32_t latitude = -DEGREE; latitude <= 10 * DEGREE; latitude += DEGREE / 4) {
            for (int32_t longitude = -DEGREE; longitude <= 10 * DEGREE; longitude += DEGREE / 4) {
                others += !ASK(shapes, part, latitude, longitude).same;
            }
        }
    }
    CHECK(others == 0);
    return 0;
}

static int check_packets(void) {
    static struct warnbox_packet parts;
    struct warnbox_sheet sheet = {WARNBOX_CAP, {{0, 0, 0, 0, 0, 0, 0, 0, 0, 0, 0, 0, 0, 0}}};
    size_t value = 7;
    parts.radius = 9;
    CHECK(warnbox_read_packet(NULL, 0, &parts) == WARNBOX_PACKET_TOO_SHORT && parts.radius == 9);
    CHECK(warnbox_packet_sentence(NULL, 0, 0, NULL, 0, &value) == WARNBOX_PACKET_TOO_SHORT && value == 0);
    CHECK(warnbox_packet_sheet(NULL, 0, &sheet) == WARNBOX_PACKET_TOO_SHORT && sheet.kind == WARNBOX_CAP);
    CHECK(warnbox_packet_place(NULL, 0, 0, 0, &value) == WARNBOX_PACKET_TOO_SHORT);
    return 0;
}

static int check_tables(void) {
    struct warnbox_entry entries[3] = {{0, 1, 2, 3, 4, 5, 6, 7}, {200, 1, 2, 3, 4, 5, 6, 7}, {1, 1, 2, 3, 4, 6, 7, 8}};
    CHECK(warnbox_receive(NULL, 0, NULL, 0, NULL, 0, 255, 0) == WARNBOX_PACKET_TOO_SHORT);
    CHECK(warnbox_find_event(NULL, 0, 1, 2) == 0);
    CHECK(warnbox_find_event(entries, 3, 1, 2) == 1);
    CHECK(warnbox_find_event(entries, 3, 1, 3) == 3);
    warnbox_sweep(NULL, 0, 9);
    warnbox_sweep(entries, 3, 6);
    CHECK(entries[0].used == 0 && entries[1].used == 0 && entries[1].cancelled == 4 && entries[2].used == 1);
    CHECK(entries[1].timestamp == 6 && entries[1].expiry == 7);
    CHECK(warnbox_find_event(entries, 3, 1, 2) == 2);
    return 0;
}

static int is_event(struct warnbox_event event, uint32_t key, uint32_t number) { return event.key == key && event.event == number; }

static int check_no_list(void) {
    struct warnbox_entry entry = {1, 1, 2, 3, 0, 5, 10, 20};
    struct warnbox_event room = {8, 9};
    size_t value = 7;
    CHECK(warnbox_running(NULL, 0, NULL, 0, 0, &value) == 0 && value == 0);
    value = 7;
    CHECK(warnbox_running(&room, 1, NULL, 0, UINT64_MAX, &value) == 0 && value == 0 && is_event(room, 8, 9));
    value = 7;
    CHECK(warnbox_running(NULL, 0, &entry, 1, 20, &value) == 0 && value == 0);
    value = 7;
    CHECK(warnbox_running(NULL, 0, &entry, 1, 10, &value) == WARNBOX_NO_ROOM_FOR_LIST && value == 0);
    return 0;
}

/* The times of an entry: from its timestamp on, before its expiry. */
static int check_times(void) {
    struct warnbox_entry entry = {255, 1, 2, 3, 0, 5, 10, 20};
    struct warnbox_event room = {8, 9};
    size_t value = 7;
    CHECK(warnbox_running(&room, 1, &entry, 1, 9, &value) == 0 && value == 0);
    CHECK(warnbox_running(&room, 1, &entry, 1, 20, &value) == 0 && value == 0);
    CHECK(is_event(room, 8, 9));
    CHECK(warnbox_running(&room, 1, &entry, 1, 10, &value) == 0 && value == 1);
    CHECK(is_event(room, 1, 2));
    CHECK(warnbox_running(&room, 1, &entry, 1, 19, &value) == 0 && value == 1);
    return 0;
}

/* Event 2 of key 1 is hidden by its first used entry, which is cancelled; a free entry counts for nothing; the event of the last entry is listed already. */
static int check_lists(void) {
    struct warnbox_entry entries[6] = {{2, 1, 2, 3, 128, 5, 10, 20}, {0, 1, 3, 3, 0, 5, 10, 20},   {1, 1, 2, 3, 0, 5, 10, 20},
                                       {128, 2, 1, 3, 0, 5, 10, 20}, {255, 1, 3, 3, 0, 5, 10, 20}, {1, 2, 1, 3, 0, 5, 10, 20}};
    struct warnbox_event room[3] = {{91, 92}, {93, 94}, {95, 96}};
    size_t value = 7;
    CHECK(warnbox_running(room, 1, entries, 6, 15, &value) == WARNBOX_NO_ROOM_FOR_LIST && value == 0);
    CHECK(is_event(room[0], 91, 92) && is_event(room[1], 93, 94) && is_event(room[2], 95, 96));
    CHECK(warnbox_running(room, 3, entries, 6, 15, &value) == 0 && value == 2);
    CHECK(is_event(room[0], 2, 1) && is_event(room[1], 1, 3) && is_event(room[2], 95, 96));
    entries[0].used = 0;
    CHECK(warnbox_running(room, 3, entries, 6, 15, &value) == 0 && value == 3);
    CHECK(is_event(room[0], 1, 2) && is_event(room[1], 2, 1) && is_event(room[2], 1, 3));
    return 0;
}

int main(void) {
    int failed = check_texts();
    if (failed == 0) failed = check_why_refused();
    if (failed == 0) failed = check_why();
    if (failed == 0) failed = check_same();
    if (failed == 0) failed = check_packets();
    if (failed == 0) failed = check_tables();
    if (failed == 0) failed = check_no_list();
    if (failed == 0) failed = check_times();
    if (failed == 0) failed = check_lists();
    return failed;
}
