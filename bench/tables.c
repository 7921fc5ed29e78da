/* Receiving packets into event tables, sweeping them, and listing their running events beside the same loops in C.
 * Usage: tables FOLDER/ */
#include "clock.h"
#include "warnbox.h"

enum { CLOCK = 5000000, KEY = 21, EVENT = 7, ALL = 4096 };

/* As many tables as make 4,096 entries, so that a pass touches the same memory whatever a table's length is. */
struct tables { const char *name; size_t length, count; struct warnbox_entry entries[ALL]; };
static struct tables both[] = {{"64", 64, 64}, {"4,096", 4096, 1}};
enum { SMALL, LARGE, SIZES };

static uint8_t *packet; /* of key 21 and event 7, with sequence number 2 */
static size_t packet_length;
static const uint32_t keys[] = {4294967295u, 7, KEY};

/* All entries are used, for other events; the last of each table is what the case asks for. */
static void fill(struct tables *tables, struct warnbox_entry last) {
    for (size_t i = 0; i < ALL; i++) {
        tables->entries[i] = (struct warnbox_entry){.used = 1, .key = KEY, .event = 1000 + (uint32_t)i, .sequence = 1, .keep_until = CLOCK,
                                                    .timestamp = CLOCK, .expiry = CLOCK + 1};
        if (i % tables->length == tables->length - 1) tables->entries[i] = last;
    }
}
static void fill_known(void *of) { fill(of, (struct warnbox_entry){.used = 1, .key = KEY, .event = EVENT, .sequence = 1}); }
static void fill_free(void *of) { fill(of, (struct warnbox_entry){.used = 0}); }
static void fill_full(void *of) { fill(of, (struct warnbox_entry){.used = 1, .key = KEY, .event = 8}); }
static void fill_running(void *of) {
    fill(of, (struct warnbox_entry){.used = 1, .key = KEY, .event = 8, .timestamp = CLOCK, .expiry = CLOCK + 1});
}

static void receive(struct tables *tables, uint8_t wanted) {
    for (size_t i = 0; i < tables->count; i++) {
        uint8_t answer = warnbox_receive(&tables->entries[i * tables->length], tables->length, packet, packet_length, keys, 3, 1, CLOCK);
        demand(answer == wanted, "a wrong answer", tables->name);
    }
}
static void accept(void *of) { receive(of, 0); }
static void refuse(void *of) { receive(of, 11); }

static void sweep(struct tables *tables, uint64_t time, bool left) {
    for (size_t i = 0; i < tables->count; i++) {
        warnbox_sweep(&tables->entries[i * tables->length], tables->length, time);
        demand(tables->entries[i * tables->length].used == left, "a wrong sweep", tables->name);
    }
}
static void sweep_none(void *of) { sweep(of, 0, true); }
static void sweep_all(void *of) { sweep(of, CLOCK + 1, false); }

/* ---- running events, and the peer: the library's loops in C */

static bool is_of(const struct warnbox_entry *entry, uint32_t key, uint32_t event) {
    return entry->used != 0 && entry->key == key && entry->event == event;
}
static bool is_running(const struct warnbox_entry *entry, uint64_t time) {
    return entry->cancelled == 0 && entry->timestamp <= time && time < entry->expiry;
}
static bool is_first(const struct warnbox_entry *entries, size_t length, size_t index) {
    size_t i = 0;
    while (i < length && !is_of(&entries[i], entries[index].key, entries[index].event)) i++;
    return i == index;
}

/* Counts the running events, and puts them into the room unless it is NULL. */
static size_t list_plainly(struct warnbox_event *events, const struct warnbox_entry *entries, size_t length, uint64_t time) {
    size_t count = 0;
    for (size_t i = 0; i < length; i++) {
        if (entries[i].used == 0 || !is_running(&entries[i], time) || !is_first(entries, length, i)) continue;
        if (events != NULL) events[count] = (struct warnbox_event){entries[i].key, entries[i].event};
        count++;
    }
    return count;
}

/* Does what warnbox_running does. The compiler may not fit it to the arguments that it gets here, since it can't do so with the library. */
__attribute__((noipa)) static uint8_t running_plainly(struct warnbox_event *events, size_t events_length, const struct warnbox_entry *entries,
                                                      size_t entries_length, uint64_t time, size_t *value) {
    *value = 0;
    if (events_length < entries_length && list_plainly(NULL, entries, entries_length, time) > events_length) return WARNBOX_NO_ROOM_FOR_LIST;
    *value = list_plainly(events, entries, entries_length, time);
    return 0;
}

typedef uint8_t lister(struct warnbox_event *, size_t, const struct warnbox_entry *, size_t, uint64_t, size_t *);

/* Lists the running events of each table into a room that is so many places shorter than the table. */
static void list(struct tables *tables, lister *lists, uint64_t time, size_t shorter, uint8_t wanted) {
    static struct warnbox_event events[ALL];
    size_t count = wanted == 0 && time == CLOCK ? tables->length : 0;
    for (size_t i = 0; i < tables->count; i++) {
        size_t value;
        const struct warnbox_entry *entries = &tables->entries[i * tables->length];
        uint8_t answer = lists(events, tables->length - shorter, entries, tables->length, time, &value);
        demand(answer == wanted && value == count, "a wrong list", tables->name);
        demand(count == 0 || events[count - 1].event == entries[count - 1].event, "a wrong list", tables->name);
    }
}
static void list_none(void *of) { list(of, warnbox_running, CLOCK + 1, 0, 0); }
static void list_all(void *of) { list(of, warnbox_running, CLOCK, 0, 0); }
static void list_short(void *of) { list(of, warnbox_running, CLOCK, 1, WARNBOX_NO_ROOM_FOR_LIST); }
static void list_none_plainly(void *of) { list(of, running_plainly, CLOCK + 1, 0, 0); }
static void list_all_plainly(void *of) { list(of, running_plainly, CLOCK, 0, 0); }
static void list_short_plainly(void *of) { list(of, running_plainly, CLOCK, 1, WARNBOX_NO_ROOM_FOR_LIST); }

/* ---- all cases; the peer, where there is one, makes two runners of a case */

static const struct { const char *name; void (*prepare)(void *), (*run)(void *), (*peer)(void *); } cases[] = {
    {"`warnbox_receive`, event known, in the last entry", fill_known, accept, NULL},
    {"`warnbox_receive`, event new, last entry free", fill_free, accept, NULL},
    {"`warnbox_receive`, event new, table full (refusal 11)", fill_full, refuse, NULL},
    {"`warnbox_sweep`, nothing due", fill_full, sweep_none, NULL},
    {"`warnbox_sweep`, all due", fill_full, sweep_all, NULL},
    {"`warnbox_running`, none running", fill_running, list_none, list_none_plainly},
    {"`warnbox_running`, all running", fill_running, list_all, list_all_plainly},
    {"`warnbox_running`, all running, room one place short (refusal 24)", fill_running, list_short, list_short_plainly},
};
enum { CASES = sizeof cases / sizeof *cases, LIBRARY = 0, PEER, KINDS };

/* A pass over 4,096 entries that takes so many nanoseconds, as the time of one table and that of an entry. */
static void print_cost(double pass, const struct tables *tables) {
    printf(" %.3f µs | %.2f ns |", pass / 1e3 / (double)tables->count, pass / ALL);
}

int main(int argc, char **argv) {
    demand(argc == 2, "usage: tables FOLDER/", "tables");
    packet = load(argv[1], "packet", &packet_length);
    static struct runner runners[CASES * SIZES * KINDS], *of[CASES][SIZES][KINDS];
    size_t count = 0;
    for (size_t i = 0; i < CASES; i++) {
        for (size_t j = 0; j < SIZES; j++) {
            for (size_t k = LIBRARY; k < (cases[i].peer != NULL ? KINDS : PEER); k++) {
                of[i][j][k] = &runners[count++];
                *of[i][j][k] = (struct runner){.run = k == PEER ? cases[i].peer : cases[i].run, .prepare = cases[i].prepare, .of = &both[j]};
            }
        }
    }
    race(runners, count);

    printf("### The event table\n\n| what | entries | time | an entry |\n|---|---:|---:|---:|\n");
    for (size_t i = 0; i < CASES; i++) {
        for (size_t j = 0; j < SIZES; j++) {
            printf("| %s | %s |", cases[i].name, both[j].name);
            print_cost(of[i][j][LIBRARY]->least, &both[j]);
            printf("\n");
        }
    }
    printf("\n| beside the same loops in C, `cc -O2` | entries | the library | an entry | in C | an entry | times the library |\n"
           "|---|---:|---:|---:|---:|---:|---:|\n");
    for (size_t i = 0; i < CASES; i++) {
        for (size_t j = 0; j < SIZES && cases[i].peer != NULL; j++) {
            printf("| %s | %s |", cases[i].name, both[j].name);
            for (size_t k = LIBRARY; k < KINDS; k++) print_cost(of[i][j][k]->least, &both[j]);
            printf(" %.2f |\n", of[i][j][PEER]->least / of[i][j][LIBRARY]->least);
        }
    }
    growths("an entry", "64 entries", "4,096");
    for (size_t i = 0; i < CASES; i++) growth(cases[i].name, of[i][SMALL][LIBRARY]->least / ALL, of[i][LARGE][LIBRARY]->least / ALL);
    return 0;
}
