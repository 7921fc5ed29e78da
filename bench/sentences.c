/* Writing sentences behind one another, half CAP and half WARN, and reading them back. */
#include <string.h>

#include "clock.h"
#include "warnbox.h"

enum { SHEETS = 10000, SENDER = 12 };

static struct warnbox_sheet sheets[SHEETS];
static uint8_t names[SHEETS * 8 + SENDER]; /* the sender, and behind it the names of all CAP sheets */
static size_t names_length;

/* A text of the first `count` sheets' sentences. */
struct text { const char *name; size_t count, length; uint8_t bytes[4 << 20]; };
static struct text texts[] = {{"1,000", 1000}, {"10,000", SHEETS}};
enum { SHORT, LONG, TEXTS };
enum { WRITE, COUNT, READ, RUNNERS };

static void make_sheets(void) {
    memcpy(names, "kiln.example", names_length = SENDER);
    for (size_t i = 0; i < SHEETS; i++) {
        if (i % 2) {
            sheets[i].kind = WARNBOX_WARN;
            sheets[i].facts.warn = (struct warnbox_warn){
                .urgent = i % 3 == 0, .cancel = i % 5 == 0, .event = 7919 * i, .number = i, .origin = 21, .lasting = 1 + i * 37 * 83 % 31536000,
                .hazard = i % 256, .urgency = 3, .severity = 2, .certainty = 1};
        } else {
            size_t length = (size_t)sprintf((char *)names + names_length, "A%zu", i);
            sheets[i].kind = WARNBOX_CAP;
            sheets[i].facts.cap = (struct warnbox_cap){
                .message = 1 + i % 3, .status = 1, .scope = 1, .part = 1, .total = 1 + i % 16, .urgency = 1 + i % 5, .severity = 1 + i / 5 % 5,
                .certainty = 1, .stated = 1, .lasting = 900 + i, .sender_length = SENDER, .name_start = names_length, .name_length = length};
            names_length += length;
        }
    }
}

/* What is timed. Each also demands the answer, in every pass. */

static void write_all(void *of) {
    struct text *text = of;
    size_t end = 0;
    for (size_t i = 0; i < text->count; i++) {
        demand(warnbox_write(text->bytes, sizeof text->bytes, end, names, names_length, &sheets[i], &end) == 0, "a sheet isn't written", text->name);
    }
    text->length = end;
}

static void count_all(void *of) {
    struct text *text = of;
    size_t count;
    demand(warnbox_count(text->bytes, text->length, &count) == 0 && count == text->count, "a wrong count", text->name);
}

static void read_last(void *of) {
    struct text *text = of;
    struct warnbox_sheet sheet;
    size_t count;
    uint8_t refusal = warnbox_read_back(text->bytes, text->length, text->count, &sheet, &count);
    demand(refusal == 0 && count == text->count && sheet.kind == sheets[text->count - 1].kind, "the last sheet isn't read back", text->name);
}

/* All of a sheet that is read back is as it was written. */
static void compare(struct text *text, size_t i) {
    struct warnbox_sheet sheet;
    size_t count;
    memset(&sheet, 0, sizeof sheet);
    demand(warnbox_read_back(text->bytes, text->length, i + 1, &sheet, &count) == 0, "a sheet isn't read back", text->name);
    if (sheet.kind == WARNBOX_CAP) {
        struct warnbox_cap *cap = &sheet.facts.cap, *wanted = &sheets[i].facts.cap;
        demand(cap->sender_length == wanted->sender_length && cap->name_length == wanted->name_length
                   && memcmp(text->bytes + cap->sender_start, names + wanted->sender_start, cap->sender_length) == 0
                   && memcmp(text->bytes + cap->name_start, names + wanted->name_start, cap->name_length) == 0,
               "another sender or name is read back", text->name);
        cap->sender_start = wanted->sender_start;
        cap->name_start = wanted->name_start;
    }
    demand(memcmp(&sheet, &sheets[i], sizeof sheet) == 0, "another sheet is read back", text->name);
}

int main(void) {
    make_sheets();
    static struct runner runners[TEXTS][RUNNERS];
    for (size_t i = 0; i < TEXTS; i++) {
        runners[i][WRITE] = (struct runner){.run = write_all, .of = &texts[i]};
        runners[i][COUNT] = (struct runner){.run = count_all, .of = &texts[i]};
        runners[i][READ] = (struct runner){.run = read_last, .of = &texts[i]};
        write_all(&texts[i]);
        for (size_t j = 0; j < 10; j++) compare(&texts[i], texts[i].count - 1 - j);
    }
    race(runners[0], TEXTS * RUNNERS);

    static const char *what[] = {"`warnbox_write`, all of them", "`warnbox_count`", "`warnbox_read_back`, the last"};
    printf("### Sentences written and read back, half CAP and half WARN\n\n");
    printf("| what | sentences | bytes | time | a sentence | a byte |\n|---|---:|---:|---:|---:|---:|\n");
    for (size_t j = 0; j < RUNNERS; j++) {
        for (size_t i = 0; i < TEXTS; i++) {
            double least = runners[i][j].least;
            printf("| %s | %s | %zu | %.3f ms | %.0f ns | %.2f ns |\n", what[j], texts[i].name, texts[i].length, least / 1e6,
                   least / (double)texts[i].count, least / (double)texts[i].length);
        }
    }
    growths("a byte", "1,000 sentences", "10,000");
    for (size_t j = 0; j < RUNNERS; j++) {
        growth(what[j], runners[SHORT][j].least / (double)texts[SHORT].length, runners[LONG][j].least / (double)texts[LONG].length);
    }
    return 0;
}
