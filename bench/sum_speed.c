/* How long zlib's crc32 takes for the sums that `blob_bench crc` measures.
 *
 *   sum_speed SIZE ROUNDS
 *
 * Prints the bytes a second of ROUNDS sums over SIZE bytes, each with another first byte. */
#define _POSIX_C_SOURCE 200112L
#include <stdint.h>
#include <stdio.h>
#include <stdlib.h>
#include <time.h>
#include <zlib.h>

static uint64_t now(void) {
    struct timespec at;
    clock_gettime(CLOCK_MONOTONIC, &at);
    return (uint64_t)at.tv_sec * 1000000000u + at.tv_nsec;
}

int main(int count, char **words) {
    if (count != 3) { fprintf(stderr, "usage: sum_speed SIZE ROUNDS\n"); return 1; }
    size_t size = strtoul(words[1], NULL, 10), rounds = strtoul(words[2], NULL, 10);
    unsigned char *bytes = malloc(size + 1);
    if (bytes == NULL) { fprintf(stderr, "no memory\n"); return 1; }
    uint64_t state = 0x9e3779b97f4a7c15u, sum = 0;
    for (size_t k = 0; k < size; k++) {
        state ^= state << 13; state ^= state >> 7; state ^= state << 17;
        bytes[k] = state >> 56;
    }
    uint64_t start = now();
    for (size_t k = 0; k < rounds; k++) {
        bytes[0] = k;
        sum += crc32(0, bytes, size);
    }
    uint64_t taken = now() - start;
    printf("%.0f %llu\n", (double)size * rounds * 1e9 / (taken ? taken : 1), (unsigned long long)sum);
    return 0;
}
