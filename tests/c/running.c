/* Fills event tables, receives packets into them, sweeps them and lists their running events, by the records of a file, and prints each answer.
 * A record is a letter, a time (8 bytes) and a number (2 bytes), most significant byte first, then for some letters more:
 *
 *     C  a case of that name, whose length is the number
 *     N  a new table of that many entries, all zeros
 *     E  the entry of that number gets the content that follows, field after field without padding
 *     R  the packet that follows, of that length, is received at that time, verified
 *     S  the table is swept at that time
 *     L  the events that are running at that time are listed into a room of that many places
 *
 * Of each list it checks that the entries and all of the room but the list stayed. tests/running.py writes the records and, by the independent model,
 * what must be printed. */
#include <inttypes.h>
#include <stdio.h>
#include <string.h>

#include "warnbox.h"

enum { MOST = 80 }; /* entries of a table, places of a room */

static uint8_t bytes[100000];
static size_t length, at;

static struct warnbox_entry entries[MOST];
static size_t entries_length;
static const uint32_t keys[] = {21, 4294967295u, 7};

/* The number that the next bytes make; past the end they are zeros. */
static uint64_t take(int width) {
    uint64_t number = 0;
    for (; width > 0; width--) {
        number <<= 8;
        if (at < length) number |= bytes[at++];
    }
    return number;
}

/* The next bytes of the file: moves behind them, and gives where they start. */
static const uint8_t *take_bytes(size_t count) {
    const uint8_t *start = &bytes[at];
    at += count;
    return start;
}

static void take_entry(struct warnbox_entry *entry) {
    entry->used = (uint8_t)take(1);
    entry->key = (uint32_t)take(4);
    entry->event = (uint32_t)take(4);
    entry->sequence = (uint16_t)take(2);
    entry->cancelled = (uint8_t)take(1);
    entry->keep_until = take(8);
    entry->timestamp = take(8);
    entry->expiry = take(8);
}

static void print_refusal(uint8_t number, size_t offset) { printf("refused %u at %zu\n", (unsigned)number, offset); }

static void receive(const uint8_t *packet, size_t packet_length, uint64_t clock) {
    uint8_t number = warnbox_receive(entries, entries_length, packet, packet_length, keys, sizeof keys / sizeof *keys, 1, clock);
    if (number == 0) {
        printf("accepted\n");
    } else {
        print_refusal(number, 0);
    }
}

/* What a place of the room holds before a list comes; no entry has this key. */
static struct warnbox_event pattern(size_t place) {
    struct warnbox_event held;
    held.key = 0xa5c3960fu;
    held.event = 0x1e2d3c4bu + (uint32_t)place;
    return held;
}

/* Checks that the room from a place on holds what it held; that is looked at past the places that were lent, too. */
static void check_stayed(const struct warnbox_event *room, size_t from) {
    for (size_t i = from; i < MOST; i++) {
        struct warnbox_event held = pattern(i);
        if (memcmp(&room[i], &held, sizeof held) != 0) printf("place %zu of the room changed\n", i);
    }
}

static void list(uint64_t time, size_t places) {
    static struct warnbox_event room[MOST];
    size_t value = 12345;
    for (size_t i = 0; i < MOST; i++) room[i] = pattern(i);
    uint8_t number = warnbox_running(room, places, entries, entries_length, time, &value);
    printf("at %" PRIu64 ", %zu places: ", time, places);
    if (number != 0) {
        print_refusal(number, value);
        check_stayed(room, 0);
        return;
    }
    printf("%zu running\n", value);
    for (size_t i = 0; i < value && i < places; i++) printf("%" PRIu32 " %" PRIu32 "\n", room[i].key, room[i].event);
    check_stayed(room, value);
}

/* Lists, and checks that the entries stayed. */
static void list_only(uint64_t time, size_t places) {
    static struct warnbox_entry before[MOST];
    memcpy(before, entries, sizeof before);
    list(time, places);
    if (memcmp(before, entries, sizeof before) != 0) printf("the entries changed\n");
}

/* Does what the next record says; 0 where it isn't a record. */
static int take_record(void) {
    int letter = (int)take(1);
    uint64_t time = take(8);
    size_t number = (size_t)take(2);
    if ((letter == 'C' || letter == 'R') ? number > length - at : number > MOST) return 0;
    switch (letter) {
    case 'C': printf("# %.*s\n", (int)number, (const char *)take_bytes(number)); return 1;
    case 'N':
        memset(entries, 0, sizeof entries);
        entries_length = number;
        return 1;
    case 'E':
        if (number >= entries_length) return 0;
        take_entry(&entries[number]);
        return 1;
    case 'R': receive(take_bytes(number), number, time); return 1;
    case 'S': warnbox_sweep(entries, entries_length, time); return 1;
    case 'L': list_only(time, number); return 1;
    default: return 0;
    }
}

int main(int argc, char **argv) {
    FILE *file = argc == 2 ? fopen(argv[1], "rb") : NULL;
    if (file == NULL) {
        fprintf(stderr, "usage: running FILE, which holds records\n");
        return 2;
    }
    length = fread(bytes, 1, sizeof bytes, file);
    fclose(file);
    while (at < length) {
        if (!take_record()) {
            printf("no record before byte %zu\n", at);
            return 1;
        }
    }
    return 0;
}
