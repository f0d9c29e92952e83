/* How long ISA-L's code takes for the jobs that `blob_bench code` measures.
 *
 *   code_speed sse|best SIZE
 *
 * `sse` calls ec_encode_data_sse and nothing wider, `best` calls ec_encode_data. One line for each mode, job and
 * state of the tables: MODE JOB ready|made SIZE NANOSECONDS, the least of several passes.
 * Tables are `ready` where they were made before the clock started, and `made` where each call makes them. */
#define _POSIX_C_SOURCE 200112L
#include <isa-l/erasure_code.h>
#include <stdint.h>
#include <stdio.h>
#include <stdlib.h>
#include <string.h>
#include <time.h>

extern void ec_encode_data_sse(int len, int k, int rows, unsigned char *tables, unsigned char **data, unsigned char **coding);

enum { MOST = 32, PASSES = 200 };

struct job { const char *name; int first_lost, lost; };

static int use_best;
static int n, m, size;
static unsigned char *shards[MOST];
static unsigned char *outputs[MOST];
static unsigned char code[MOST * MOST], rows[MOST * MOST], tables[32 * MOST * MOST];

static void fail(const char *what) { fprintf(stderr, "%s\n", what); exit(1); }

static unsigned char *made(size_t bytes) {
    static uint64_t state = 0x9e3779b97f4a7c15u;
    unsigned char *block = NULL;
    if (posix_memalign((void **)&block, 64, bytes)) fail("no memory");
    for (size_t k = 0; k < bytes; k++) {
        state ^= state << 13; state ^= state >> 7; state ^= state << 17;
        block[k] = state >> 56;
    }
    return block;
}

/* The indexes of the least n shards that are held. */
static void least_held(const struct job *job, int *held) {
    int count = 0;
    for (int k = 0; k < n + m && count < n; k++)
        if (k < job->first_lost || k >= job->first_lost + job->lost) held[count++] = k;
}

/* The rows of the lost shards by the held ones, and their tables. */
static void make_tables(const struct job *job, const int *held) {
    gf_gen_cauchy1_matrix(code, n + m, n);
    if (job->first_lost == n) {
        ec_init_tables(n, job->lost, code + n * n, tables);
        return;
    }
    unsigned char part[MOST * MOST], inverse[MOST * MOST];
    for (int i = 0; i < n; i++) memcpy(part + n * i, code + n * held[i], n);
    if (gf_invert_matrix(part, inverse, n)) fail("no inverse");
    for (int j = 0; j < job->lost; j++) memcpy(rows + n * j, inverse + n * (job->first_lost + j), n);
    ec_init_tables(n, job->lost, rows, tables);
}

static uint64_t now(void) {
    struct timespec at;
    clock_gettime(CLOCK_MONOTONIC, &at);
    return (uint64_t)at.tv_sec * 1000000000u + at.tv_nsec;
}

static void one_call(const struct job *job, const int *held, int made_each) {
    unsigned char *sources[MOST];
    for (int i = 0; i < n; i++) sources[i] = shards[held[i]];
    if (made_each) make_tables(job, held);
    if (use_best) ec_encode_data(size, n, job->lost, tables, sources, outputs);
    else ec_encode_data_sse(size, n, job->lost, tables, sources, outputs);
}

static void run(const char *mode, const struct job *job, int made_each) {
    int held[MOST];
    uint64_t least = UINT64_MAX;
    least_held(job, held);
    make_tables(job, held);
    for (int pass = 0; pass < PASSES; pass++) {
        uint64_t start = now();
        one_call(job, held, made_each);
        uint64_t taken = now() - start;
        if (taken < least) least = taken;
    }
    printf("%s %s %s %d %llu\n", mode, job->name, made_each ? "made" : "ready", size, (unsigned long long)least);
}

static void all_jobs(const char *mode, int data, int parity) {
    n = data; m = parity;
    for (int k = 0; k < n + m; k++) {
        shards[k] = made(size);
        outputs[k] = made(size);
    }
    const struct job jobs[] = {{"encode", n, m}, {"rebuild-one", 0, 1}, {"rebuild-all", 0, m < n ? m : n}};
    for (int j = 0; j < 3; j++) { run(mode, &jobs[j], 0); run(mode, &jobs[j], 1); }
}

int main(int count, char **words) {
    if (count != 3) fail("usage: code_speed sse|best SIZE");
    use_best = strcmp(words[1], "best") == 0;
    size = atoi(words[2]);
    if (size < 64) fail("SIZE is 64 at least");
    all_jobs("EC6P3", 6, 3);
    all_jobs("EC12P4", 12, 4);
    all_jobs("EC15P12", 15, 12);
    return 0;
}
