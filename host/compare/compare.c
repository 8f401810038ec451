/* Measures the same jobs by two builds of the library: host/compare/run. */
#include <dlfcn.h>
#include <stdint.h>
#include <stdio.h>
#include <stdlib.h>
#include <string.h>
#include <time.h>

#define RUNS 21
#define RUN_NANOSECONDS 4e6
#define MAIN_TABLE 10394112
#define GRAMMAR_TABLE 16384
#define RESULT 4096
#define FIELD (1 << 14)

/* An answer begins with its number; the rest is of any length, and is returned in memory. */
typedef struct {
    uint32_t number;
    uint8_t rest[124];
} Answer;

typedef Answer Check(const uint8_t *, size_t);
typedef Answer Read(const uint8_t *, size_t, const uint8_t *, size_t, uint32_t *, size_t, uint32_t *, size_t,
                    uint32_t *, size_t);

typedef struct {
    Check *check;
    Read *read;
} Library;

typedef struct {
    char *name, *grammar, *record;
} Job;

static uint32_t *main_table, *grammar_table, *result;

static Library library(const char *path) {
    void *handle = dlopen(path, RTLD_NOW | RTLD_LOCAL);
    if (!handle) {
        fprintf(stderr, "%s\n", dlerror());
        exit(1);
    }
    Library made;
    *(void **)&made.check = dlsym(handle, "ixml_check");
    *(void **)&made.read = dlsym(handle, "ixml_read");
    return made;
}

static uint32_t answer(Library by, Job job) {
    const uint8_t *grammar = (const uint8_t *)job.grammar;
    if (!job.record)
        return by.check(grammar, strlen(job.grammar)).number;
    return by.read(grammar, strlen(job.grammar), (const uint8_t *)job.record, strlen(job.record), main_table,
                   MAIN_TABLE, grammar_table, GRAMMAR_TABLE, result, RESULT)
        .number;
}

static double now(void) {
    struct timespec time;
    clock_gettime(CLOCK_THREAD_CPUTIME_ID, &time);
    return time.tv_sec * 1e9 + time.tv_nsec;
}

static double nanoseconds(Library by, Job job) {
    double start = now(), end;
    int repeats = 0;
    do {
        answer(by, job);
        repeats++;
        end = now();
    } while (end - start < RUN_NANOSECONDS);
    return (end - start) / repeats;
}

static int ascending(const void *a, const void *b) {
    double x = *(const double *)a, y = *(const double *)b;
    return (x > y) - (x < y);
}

static void measure(Library old, Library new, Job job) {
    double olds[RUNS], news[RUNS];
    uint32_t number = answer(old, job);
    if (number != answer(new, job)) {
        fprintf(stderr, "%s: other answers\n", job.name);
        exit(1);
    }
    for (int run = 0; run < RUNS; run++) {
        olds[run] = nanoseconds(old, job);
        news[run] = nanoseconds(new, job);
    }
    qsort(olds, RUNS, sizeof *olds, ascending);
    qsort(news, RUNS, sizeof *news, ascending);
    double before = olds[RUNS / 2], after = news[RUNS / 2];
    printf("| %s (answer %u) | %.4f | %.4f | %.2f |\n", job.name, number, before / 1e6, after / 1e6, after / before);
}

int main(int count, char **arguments) {
    if (count != 3)
        return 2;
    Library old = library(arguments[1]), new = library(arguments[2]);
    main_table = calloc(MAIN_TABLE, sizeof *main_table);
    grammar_table = calloc(GRAMMAR_TABLE, sizeof *grammar_table);
    result = calloc(RESULT, sizeof *result);
    static char line[FIELD];
    puts("| job | before ms | after ms | after / before |\n|---|---:|---:|---:|");
    while (fgets(line, sizeof line, stdin)) {
        Job job = {strtok(line, "\t\n"), strtok(NULL, "\t\n"), strtok(NULL, "\t\n")};
        if (job.grammar)
            measure(old, new, job);
    }
    return 0;
}
