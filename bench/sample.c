/* The work of `regent sample N` as loops over arrays: a ring of 4,096 * N cells, of which each takes its own number and its
   neighbour's in each of four rounds. Prints what the sample prints. */
#include <stdint.h>
#include <stdio.h>
#include <stdlib.h>

int main(int argc, char **argv) {
    if (argc != 2) return 2;
    int64_t cells = 4096 * strtoll(argv[1], NULL, 10);
    int64_t *v = malloc(cells * sizeof *v), *w = malloc(cells * sizeof *w), *next = malloc(cells * sizeof *next);
    if (!v || !w || !next) return 7;
    for (int64_t x = 0; x < cells; x++) {
        v[x] = x;
        next[x] = (x + 1) % cells;
    }
    for (int round = 0; round < 4; round++) {
        for (int64_t x = 0; x < cells; x++) w[x] = v[x] + v[next[x]];
        for (int64_t x = 0; x < cells; x++) v[x] = w[x];
    }
    int64_t total = 0;
    for (int64_t x = 0; x < cells; x++) total += v[x];
    printf("%lld cells, total %lld\n", (long long)cells, (long long)total);
    return 0;
}
