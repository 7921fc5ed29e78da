/* The warning box's library: public warnings (CAP 1.2 documents, WARN 1.0 packets) in one sentence each.
 *
 * Every function ends, writes nothing but what is said here, and either answers or refuses with the number and the offset that the
 * project's rules (document 01) fix; each is proved to do so for all inputs (crates/warnbox).
 *
 * What a function returns is the number of the refusal (enum warnbox_refusal), or 0 for an answer. With an answer *value is what the function
 * tells; with a refusal it is the refusal's offset in the document or text, 0 where the rules name none. A refusal changes nothing else.
 * Two functions can't refuse and return what they tell: warnbox_find_event and warnbox_version.
 *
 * Parameters come in one order: what is lent to be changed (a buffer with its length and the offset to start from, a table), what is read (bytes,
 * keys, a sheet), numbers, and last where the results go. A pointer to many is followed by how many they are.
 *
 * What a caller owes, since C can't say it:
 *  - each pointer is good for the length given with it, for reading, and for writing where it isn't const; where that length is 0 it may be null;
 *  - a pointer without a length is good for one value of its type;
 *  - what one call may write overlaps nothing else that is passed to it, and no other thread touches it meanwhile.
 * Any values may come: any bytes, any lengths, any numbers, any content of a table or a sheet.
 *
 * The library keeps nothing between calls, takes no memory and calls nothing but memcpy and memset: every function is reentrant. No call takes more
 * stack than WARNBOX_STACK bytes, beside what these two take (tests/stack.py adds up the frames of the archive's functions along their calls).
 * The archive is for x86-64 (any processor of that kind) with the System V calling convention, as on Linux.
 */
#ifndef WARNBOX_H
#define WARNBOX_H

#include <stddef.h>
#include <stdint.h>

#ifdef __cplusplus
extern "C" {
#endif

/* Major times 10,000, minor times 100 and patch; warnbox_version gives that of the archive. */
#define WARNBOX_VERSION 20100
uint32_t warnbox_version(void);

/* in bytes */
#define WARNBOX_LONGEST_SENTENCE 651 /* its newline among them */
#define WARNBOX_LONGEST_DOCUMENT 65536
#define WARNBOX_LONGEST_PACKET 1200
#define WARNBOX_LONGEST_NAME 64 /* of a refusal */
#define WARNBOX_STACK 4352
/* parts of a document */
#define WARNBOX_MOST_PARTS 16

/* ---- refusals */

enum warnbox_refusal {
    WARNBOX_PACKET_TOO_SHORT = 1,     /* under 8 bytes, or an alert under 132 */
    WARNBOX_NOT_WARN = 2,             /* the first four bytes aren't "WARN" */
    WARNBOX_VERSION_NOT_KNOWN = 3,    /* the major version isn't 1 */
    WARNBOX_NOT_ALERT = 4,            /* the ALERT flag is clear */
    WARNBOX_PACKET_TOO_LONG = 5,      /* over 1,200 bytes */
    WARNBOX_PLACE_OUT_OF_RANGE = 6,   /* latitude or longitude of a packet, or of a place asked about */
    WARNBOX_LASTING_OUT_OF_RANGE = 7, /* a lasting time that isn't 1 to 31,536,000 seconds */
    WARNBOX_KEY_NOT_LISTED = 8,       /* the packet's key id */
    WARNBOX_NOT_VERIFIED = 9,         /* the signature, by the chip's verdict */
    WARNBOX_SEQUENCE_NOT_ABOVE = 10,  /* not above the number that is stored for the event */
    WARNBOX_NO_FREE_ENTRY = 11,       /* the event has no entry, and none is free */
    WARNBOX_CLOCK_TOO_LATE = 12,      /* above 2^64 - 65,536 */
    WARNBOX_NO_ROOM = 13,             /* the start is past the buffer's end, or there is less room than text */
    WARNBOX_TOO_LONG = 14,            /* a document over 65,536 bytes, a sender or identifier over 128, a 17th info */
    WARNBOX_XML_FORM = 15,            /* not the XML that is taken */
    WARNBOX_ELEMENT = 16,             /* unknown, misplaced, repeated or missing */
    WARNBOX_CODE = 17,                /* not in its list */
    WARNBOX_TIME = 18,                /* not a time */
    WARNBOX_SENDER = 19,              /* a sender or identifier that is empty or has a forbidden byte */
    WARNBOX_NOT_THERE = 21,           /* no such part, sentence or name */
    WARNBOX_SHAPE = 22,               /* not a polygon or circle */
    WARNBOX_NOT_READ_BACKS = 23,      /* a text isn't whole read-backs, or a sheet has a fact out of range */
    WARNBOX_NO_ROOM_FOR_LIST = 24     /* the list has more than the room has places */
};

/* Writes a refusal's short name into a buffer from `start` on, without an end mark. *value: the offset after it. Refusals: 21 for a number that
 * isn't one of these, 13. No name has more than WARNBOX_LONGEST_NAME bytes. */
uint8_t warnbox_refusal_name(uint8_t *buffer, size_t buffer_length, size_t start, uint8_t number, size_t *value);

/* ---- sheets: what a sentence says */

/* CAP's codes, numbered from 1 in the order of the schema's lists */
enum warnbox_message {
    WARNBOX_MESSAGE_ALERT = 1,
    WARNBOX_MESSAGE_UPDATE,
    WARNBOX_MESSAGE_CANCEL,
    WARNBOX_MESSAGE_ACK,
    WARNBOX_MESSAGE_ERROR
};
enum warnbox_status {
    WARNBOX_STATUS_ACTUAL = 1,
    WARNBOX_STATUS_EXERCISE,
    WARNBOX_STATUS_SYSTEM,
    WARNBOX_STATUS_TEST,
    WARNBOX_STATUS_DRAFT
};
enum warnbox_scope { WARNBOX_SCOPE_PUBLIC = 1, WARNBOX_SCOPE_RESTRICTED, WARNBOX_SCOPE_PRIVATE };
enum warnbox_urgency {
    WARNBOX_URGENCY_IMMEDIATE = 1,
    WARNBOX_URGENCY_EXPECTED,
    WARNBOX_URGENCY_FUTURE,
    WARNBOX_URGENCY_PAST,
    WARNBOX_URGENCY_UNKNOWN
};
enum warnbox_severity {
    WARNBOX_SEVERITY_EXTREME = 1,
    WARNBOX_SEVERITY_SEVERE,
    WARNBOX_SEVERITY_MODERATE,
    WARNBOX_SEVERITY_MINOR,
    WARNBOX_SEVERITY_UNKNOWN
};
enum warnbox_certainty {
    WARNBOX_CERTAINTY_OBSERVED = 1,
    WARNBOX_CERTAINTY_LIKELY,
    WARNBOX_CERTAINTY_POSSIBLE,
    WARNBOX_CERTAINTY_UNLIKELY,
    WARNBOX_CERTAINTY_UNKNOWN
};

/* Part 0 of 0 is an alert without parts: urgency to lasting are then 0. Sender and name are given by where they stand in a text; they must lie in
 * it. A sheet that is accepted has one form: no two arrays of these numbers, up to where sender and name stand, say the same. */
struct warnbox_cap {
    uint64_t message, status, scope;
    uint64_t part, total;
    uint64_t urgency, severity, certainty;
    uint64_t stated;  /* 1: the lasting time is stated; 0: it isn't, and `lasting` is 0 */
    uint64_t lasting; /* seconds, 1 to 31,536,000 */
    size_t sender_start, sender_length;
    size_t name_start, name_length;
};

/* The flags are 0 or 1; the codes are the packet's own bytes. */
struct warnbox_warn {
    uint64_t urgent, update, cancel, test;
    uint64_t event, number, origin;
    uint64_t lasting; /* seconds, 1 to 31,536,000 */
    uint64_t hazard, kind, urgency, severity, certainty, response;
};

struct warnbox_sheet {
    uint64_t kind; /* WARNBOX_CAP or WARNBOX_WARN */
    union {
        struct warnbox_cap cap;
        struct warnbox_warn warn;
    } facts;
};

enum warnbox_kind { WARNBOX_CAP = 1, WARNBOX_WARN = 2 };

/* Writes the sentence of a sheet into a buffer from `start` on; all other bytes of the buffer stay. `text` is where a CAP sheet's sender and name
 * stand; for a WARN sheet it isn't looked at. *value: the next start, which is the offset after the sentence. Refusals: 23, 13. */
uint8_t warnbox_write(uint8_t *buffer, size_t buffer_length, size_t start, const uint8_t *text, size_t text_length,
                      const struct warnbox_sheet *sheet, size_t *value);

/* Counts the read-backs that a text is made of. *value: how many. Refusals: 23. */
uint8_t warnbox_count(const uint8_t *text, size_t text_length, size_t *value);

/* Gives the sheet of the k-th read-back of a text, counted from 1; a CAP sheet's sender and name stand in that text. With k = 0 the sheet
 * stays as it is. *value: how many read-backs there are. Refusals: 23, 21. */
uint8_t warnbox_read_back(const uint8_t *text, size_t text_length, size_t k, struct warnbox_sheet *sheet, size_t *value);

/* ---- CAP documents */

enum warnbox_side { WARNBOX_OUTSIDE = 0, WARNBOX_INSIDE = 1, WARNBOX_NO_SHAPE = 2 };
enum warnbox_shape { WARNBOX_POLYGON = 1, WARNBOX_CIRCLE = 2 };

/* Why a part says inside: the first area, and in it the first polygon or else the first circle, that holds the place, each counted from 1; or how many
 * shapes (polygons and circles) it has, where it says outside. What isn't said is 0. */
struct warnbox_why {
    size_t area;  /* inside: among all areas of the part, also those without shapes */
    size_t kind;  /* inside: an enum warnbox_shape */
    size_t shape; /* inside: among the area's polygons for a polygon, among its circles for a circle */
    size_t count; /* outside: all shapes of the part */
};

/* Checks a document. *value: its number of parts, 0 to 16. Refusals: 14 to 19 and 22. */
uint8_t warnbox_check_document(const uint8_t *document, size_t document_length, size_t *value);

/* Writes the sentence of a part into a buffer from `start` on. Parts are counted from 1; a document that has none is asked for part 0.
 * *value: the next start. Refusals: the document's own, then 21, 7, 13. */
uint8_t warnbox_document_sentence(uint8_t *buffer, size_t buffer_length, size_t start, const uint8_t *document, size_t document_length,
                                  size_t part, size_t *value);

/* Gives the sheet of a part. Its sender and name stand in the document, which is then the text that warnbox_write takes; to keep the sheet longer than
 * the document, copy the two and set where they stand. *value: 0. Refusals: the document's own, then 21, 7. */
uint8_t warnbox_document_sheet(const uint8_t *document, size_t document_length, size_t part, struct warnbox_sheet *sheet, size_t *value);

/* Whether a place lies inside a part. Latitude and longitude are in units of 1e-7 degree, south and west negative. Circles reach across the date line,
 * polygons lie on the flat grid. *value: an enum warnbox_side. Refusals: the document's own, then 21, 6. */
uint8_t warnbox_document_place(const uint8_t *document, size_t document_length, size_t part, int32_t latitude, int32_t longitude,
                               size_t *value);

/* Whether a place lies inside a part, and why: the shape that is named holds the place, and none before it does. *value: an enum warnbox_side, the one
 * that warnbox_document_place tells. Refusals: the document's own, then 21, 6. */
uint8_t warnbox_document_why(const uint8_t *document, size_t document_length, size_t part, int32_t latitude, int32_t longitude,
                             struct warnbox_why *why, size_t *value);

/* ---- WARN packets: every refusal's offset is 0 */

/* bytes of a packet, by where they start and how many they are */
struct warnbox_span {
    size_t start, length;
};

struct warnbox_packet {
    uint64_t timestamp, onset, expiry, effective;
    struct warnbox_span tlv;          /* the TLV block, as it stands in the packet */
    struct warnbox_span signed_bytes; /* what the signature is of: all bytes before it */
    struct warnbox_span signature;    /* Ed25519, 64 bytes */
    uint32_t event, key;
    int32_t latitude, longitude; /* of the epicentre, in units of 1e-7 degree */
    uint16_t sequence;
    uint16_t ttl;    /* seconds */
    uint16_t radius; /* in units of 10 m */
    uint8_t urgent, update, cancel, test; /* flags, 0 or 1 */
    uint8_t hazard_major, hazard_minor;
    uint8_t urgency, severity, certainty, response;
};

/* Gives the fields of a packet and where its other parts stand. Refusals: 1 to 7. */
uint8_t warnbox_read_packet(const uint8_t *packet, size_t packet_length, struct warnbox_packet *parts);

/* Writes the sentence of a packet into a buffer from `start` on. *value: the next start. Refusals: 1 to 7, then 13. */
uint8_t warnbox_packet_sentence(uint8_t *buffer, size_t buffer_length, size_t start, const uint8_t *packet, size_t packet_length,
                                size_t *value);

/* Gives the sheet of a packet. Refusals: 1 to 7. */
uint8_t warnbox_packet_sheet(const uint8_t *packet, size_t packet_length, struct warnbox_sheet *sheet);

/* Whether a place lies inside a packet's circle, across the date line too. *value: WARNBOX_OUTSIDE or WARNBOX_INSIDE. Refusals: 1 to 7, then 6 for the place. */
uint8_t warnbox_packet_place(const uint8_t *packet, size_t packet_length, int32_t latitude, int32_t longitude, size_t *value);

/* ---- the event table */

/* An entry of the event table, which the caller lends as an array of any length and content: also one that flash has damaged. An array of zeros is an
 * empty table. `used` and `cancelled` are set where they aren't 0; what is written there is 0 or 1. */
struct warnbox_entry {
    uint8_t used;
    uint32_t key;
    uint32_t event;
    uint16_t sequence;
    uint8_t cancelled;
    uint64_t keep_until;
    uint64_t timestamp, expiry; /* of the last packet that was accepted, also where they are smaller than those before */
};

/* An event, by its key id and its number. */
struct warnbox_event {
    uint32_t key;
    uint32_t event;
};

/* Receives a packet: `keys` are the key ids that are listened to, `verified` is the signature chip's verdict (not 0: verified), `clock` the time in
 * seconds. Refusals: 1 to 12; the table changes on acceptance only, and then in one entry. */
uint8_t warnbox_receive(struct warnbox_entry *entries, size_t entries_length, const uint8_t *packet, size_t packet_length,
                        const uint32_t *keys, size_t keys_length, uint8_t verified, uint64_t clock);

/* Frees the used entries whose keep_until is below a time. Nothing else of them is looked at, and nothing but `used` is written. */
void warnbox_sweep(struct warnbox_entry *entries, size_t entries_length, uint64_t time);

/* The index of an event's first used entry; entries_length where it has none. The search ends at that entry. */
size_t warnbox_find_event(const struct warnbox_entry *entries, size_t entries_length, uint32_t key, uint32_t event);

/* Lists the events that are running at a time, in the order of the table: those whose first used entry isn't cancelled, with timestamp <= time and
 * time < expiry. A later used entry of the same event never matters. The list takes the first places of `events`; what stands behind it stays. *value:
 * how many there are. Refusals: 24 where there are more than events_length. Any time may be asked about, also a later one than warnbox_receive takes.
 * A room of entries_length places always suffices, and then the entries are gone through once; where the room is shorter they are counted first.
 * To go through them is one pass, and for each used entry that is uncancelled and within its times a search from the table's start for its event's
 * first used entry, which ends at that entry at the latest. So where none runs it is one plain pass; at worst, where all do, the time grows with the square
 * of the table's length. */
uint8_t warnbox_running(struct warnbox_event *events, size_t events_length, const struct warnbox_entry *entries, size_t entries_length,
                        uint64_t time, size_t *value);

/* ---- the layouts that the archive is built for */

#if defined(__cplusplus) && __cplusplus >= 201103L
#define WARNBOX_ASSERT(name, holds) static_assert(holds, #name)
#elif defined(__STDC_VERSION__) && __STDC_VERSION__ >= 201112L
#define WARNBOX_ASSERT(name, holds) _Static_assert(holds, #name)
#else
#define WARNBOX_ASSERT(name, holds) typedef char warnbox_assert_##name[(holds) ? 1 : -1]
#endif

WARNBOX_ASSERT(entry_size, sizeof(struct warnbox_entry) == 40);
WARNBOX_ASSERT(entry_key, offsetof(struct warnbox_entry, key) == 4);
WARNBOX_ASSERT(entry_event, offsetof(struct warnbox_entry, event) == 8);
WARNBOX_ASSERT(entry_sequence, offsetof(struct warnbox_entry, sequence) == 12);
WARNBOX_ASSERT(entry_cancelled, offsetof(struct warnbox_entry, cancelled) == 14);
WARNBOX_ASSERT(entry_keep_until, offsetof(struct warnbox_entry, keep_until) == 16);
WARNBOX_ASSERT(entry_timestamp, offsetof(struct warnbox_entry, timestamp) == 24);
WARNBOX_ASSERT(entry_expiry, offsetof(struct warnbox_entry, expiry) == 32);
WARNBOX_ASSERT(event_size, sizeof(struct warnbox_event) == 8);
WARNBOX_ASSERT(event_event, offsetof(struct warnbox_event, event) == 4);
/* a header that is only read for another processor, where size_t is smaller, is no error: there is no archive to link */
WARNBOX_ASSERT(sheet_size, sizeof(size_t) != 8 || sizeof(struct warnbox_sheet) == 15 * 8);
WARNBOX_ASSERT(sheet_facts, offsetof(struct warnbox_sheet, facts) == 8);
WARNBOX_ASSERT(cap_sender, offsetof(struct warnbox_cap, sender_start) == 10 * 8);
WARNBOX_ASSERT(warn_size, sizeof(struct warnbox_warn) == 14 * 8);
WARNBOX_ASSERT(why_size, sizeof(size_t) != 8 || sizeof(struct warnbox_why) == 32);
WARNBOX_ASSERT(why_kind, offsetof(struct warnbox_why, kind) == sizeof(size_t));
WARNBOX_ASSERT(why_shape, offsetof(struct warnbox_why, shape) == 2 * sizeof(size_t));
WARNBOX_ASSERT(why_count, offsetof(struct warnbox_why, count) == 3 * sizeof(size_t));
WARNBOX_ASSERT(packet_size, sizeof(size_t) != 8 || sizeof(struct warnbox_packet) == 112);
WARNBOX_ASSERT(packet_tlv, offsetof(struct warnbox_packet, tlv) == 32);
WARNBOX_ASSERT(packet_event, sizeof(size_t) != 8 || offsetof(struct warnbox_packet, event) == 80);
WARNBOX_ASSERT(packet_sequence, sizeof(size_t) != 8 || offsetof(struct warnbox_packet, sequence) == 96);
WARNBOX_ASSERT(packet_urgent, sizeof(size_t) != 8 || offsetof(struct warnbox_packet, urgent) == 102);

#ifdef __cplusplus
}
#endif

#endif
