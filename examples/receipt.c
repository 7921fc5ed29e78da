/* Reads a WARN packet from a file, shows what the signature chip needs, and receives it twice into an event table: the second time it is refused,
 * since its number isn't above the one that is stored. Then the running events are listed (a packet with the CANCEL flag leaves none), and the table is
 * swept.
 *
 *     tests/archive.sh && cc -Iinclude examples/receipt.c target/staticlib/libwarnbox.a -o target/receipt
 *     xxd -r -p tests/vectors/warn-01-sample.hex > target/packet && target/receipt target/packet
 */
#include <inttypes.h>
#include <stdio.h>

#include "warnbox.h"

enum { ENTRIES = 64 };

static uint8_t bytes[WARNBOX_LONGEST_PACKET + 1]; /* a longer one is refused by its first bytes alone */
static struct warnbox_entry entries[ENTRIES];     /* zeros: an empty table */
static struct warnbox_event events[ENTRIES];      /* as many as the entries: room for every list */

/* Prints a refusal, or what is said where there is none. */
static void print_answer(uint8_t number, const char *otherwise) {
    uint8_t name[WARNBOX_LONGEST_NAME];
    size_t length = 0;
    if (number != 0 && warnbox_refusal_name(name, sizeof name, 0, number, &length) == 0) {
        printf("refused %u: %.*s\n", (unsigned)number, (int)length, (const char *)name);
    } else {
        printf("%s\n", otherwise);
    }
}

static void print_span(const char *what, struct warnbox_span span) {
    printf("%s: %zu bytes from %zu on", what, span.length, span.start);
}

static void print_packet(const struct warnbox_packet *packet) {
    uint8_t sentence[WARNBOX_LONGEST_SENTENCE];
    struct warnbox_sheet sheet;
    size_t end = 0, length = packet->signature.start + packet->signature.length;
    printf("event %" PRIu32 ", number %u, key %" PRIu32 "\n", packet->event, (unsigned)packet->sequence, packet->key);
    print_span("signed", packet->signed_bytes);
    print_span("; TLV block", packet->tlv);
    print_span("; signature", packet->signature);
    printf("\nsignature ");
    for (size_t i = 0; i < packet->signature.length; i++) printf("%02x", (unsigned)bytes[packet->signature.start + i]);
    printf("\n");
    if (warnbox_packet_sheet(bytes, length, &sheet) == 0 && warnbox_write(sentence, sizeof sentence, 0, NULL, 0, &sheet, &end) == 0) {
        fwrite(sentence, 1, end, stdout);
    }
}

static void print_running(uint64_t time) {
    size_t count = 0;
    warnbox_running(events, ENTRIES, entries, ENTRIES, time, &count); /* with room for all entries there is no refusal */
    printf("running at %" PRIu64 ":%s", time, count == 0 ? " nothing" : "");
    for (size_t i = 0; i < count; i++) printf("%s event %" PRIu32 " of key %" PRIu32, i > 0 ? "," : "", events[i].event, events[i].key);
    printf("\n");
}

int main(int argc, char **argv) {
    FILE *file = argc == 2 ? fopen(argv[1], "rb") : NULL;
    if (file == NULL) {
        fprintf(stderr, "usage: receipt FILE, which holds a packet\n");
        return 2;
    }
    size_t length = fread(bytes, 1, sizeof bytes, file);
    fclose(file);

    struct warnbox_packet packet;
    uint8_t number = warnbox_read_packet(bytes, length, &packet);
    if (number != 0) {
        print_answer(number, "");
        return 1;
    }
    print_packet(&packet);

    /* a box takes the keys from its settings, and the verdict from its signature chip, which gets the key, the signed bytes and the signature */
    const uint32_t keys[] = {packet.key};
    const uint8_t verified = 1;
    uint64_t clock = packet.timestamp;
    for (int times = 0; times < 2; times++) {
        print_answer(warnbox_receive(entries, ENTRIES, bytes, length, keys, 1, verified, clock), "accepted");
    }

    print_running(packet.timestamp);
    print_running(packet.expiry);
    size_t index = warnbox_find_event(entries, ENTRIES, packet.key, packet.event);
    if (index == ENTRIES) return 1; /* not accepted */
    printf("the event's entry: %zu, kept until %" PRIu64 "\n", index, entries[index].keep_until);
    warnbox_sweep(entries, ENTRIES, entries[index].keep_until);
    printf("swept at that time: %s\n", entries[index].used != 0 ? "kept" : "freed");
    warnbox_sweep(entries, ENTRIES, entries[index].keep_until + 1);
    printf("swept a second later: %s\n", entries[index].used != 0 ? "kept" : "freed");
    return 0;
}
