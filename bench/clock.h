/* What the benchmarks share: files, demands, and runners that are timed in turn. */
#ifndef CLOCK_H
#define CLOCK_H

#include <stdbool.h>
#include <stdint.h>
#include <stdio.h>
#include <stdlib.h>
#include <time.h>

enum { ROUNDS = 200, SAMPLE = 500000 /* nanoseconds that a sample takes at least: short, so that many are free of interruptions */ };

/* Ends the program, loudly, where something that the benchmark relies on doesn't hold. */
static inline void demand(bool holds, const char *what, const char *of) {
    if (holds) return;
    fprintf(stderr, "bench: %s: %s\n", of, what);
    exit(1);
}

/* Reads a whole file; a zero stands behind its bytes. */
static inline uint8_t *load(const char *folder, const char *name, size_t *length) {
    char path[4096];
    snprintf(path, sizeof path, "%s%s", folder, name);
    FILE *file = fopen(path, "rb");
    demand(file != NULL, "can't be opened", path);
    uint8_t *bytes = malloc(1 << 20);
    demand(bytes != NULL, "no memory", path);
    *length = fread(bytes, 1, (1 << 20) - 1, file);
    demand(feof(file), "has a megabyte or more", path);
    bytes[*length] = 0;
    fclose(file);
    return bytes;
}

static inline uint64_t now(void) {
    struct timespec t;
    clock_gettime(CLOCK_MONOTONIC, &t);
    return (uint64_t)t.tv_sec * 1000000000u + (uint64_t)t.tv_nsec;
}

struct runner {
    void (*run)(void *of);     /* one pass of what is timed */
    void (*prepare)(void *of); /* unless NULL: called before each pass, and not timed */
    void *of;
    uint64_t passes; /* of a sample, set by race() */
    double least;    /* nanoseconds of a pass, the least of all samples, set by race() */
};

static inline uint64_t sample(const struct runner *runner) {
    uint64_t took = 0;
    if (runner->prepare == NULL) {
        runner->run(runner->of); /* what ran before has filled the caches with other things */
        uint64_t start = now();
        for (uint64_t i = 0; i < runner->passes; i++) runner->run(runner->of);
        return now() - start;
    }
    for (uint64_t i = 0; i < runner->passes; i++) {
        runner->prepare(runner->of);
        uint64_t start = now();
        runner->run(runner->of);
        took += now() - start;
    }
    return took;
}

/* Times all runners: in each round each of them takes one sample, so that whatever else the machine does hits all alike. */
static inline void race(struct runner *runners, size_t count) {
    for (size_t i = 0; i < count; i++) {
        runners[i].least = 1e18;
        for (runners[i].passes = 1; sample(&runners[i]) < SAMPLE;) runners[i].passes *= 2;
    }
    for (int round = 0; round < ROUNDS; round++) {
        for (size_t i = 0; i < count; i++) {
            double took = (double)sample(&runners[i]) / (double)runners[i].passes;
            if (took < runners[i].least) runners[i].least = took;
        }
    }
}

/* A table of the project's wishes: what is to be at least so much, as how many times as fast as another something is, or at most so much. */
static inline void wishes(void) { printf("\n| wish | wanted | measured | holds |\n|---|---:|---:|---|\n"); }
static inline void wish_row(const char *what, const char *of, bool at_most, double wanted, double measured) {
    double missing = at_most ? measured - wanted : wanted - measured;
    printf("| %s: %s | %s%g | %.2f | ", what, of, at_most ? "at most " : "", wanted, measured);
    if (missing <= 0) printf("yes |\n");
    else printf("**no**, %s by %.2f (%.0f %%) |\n", at_most ? "over" : "short", missing, missing / wanted * 100);
}
static inline void wish(const char *what, const char *of, double wanted, double measured) { wish_row(what, of, false, wanted, measured); }
static inline void wish_at_most(const char *what, const char *of, double wanted, double measured) { wish_row(what, of, true, wanted, measured); }

/* A table of growth: what a unit (a byte, an entry) costs of a small and of a large input. Linear: a quarter more at most. */
static inline void growths(const char *unit, const char *small, const char *large) {
    printf("\n| linear in size | %s, %s | %s, %s | ratio | holds |\n|---|---:|---:|---:|---|\n", unit, small, unit, large);
}
static inline void growth(const char *what, double of_small, double of_large) {
    printf("| %s | %.3f ns | %.3f ns | %.2f | %s |\n", what, of_small, of_large, of_large / of_small, of_large / of_small <= 1.25 ? "yes" : "**no**");
}

#endif
