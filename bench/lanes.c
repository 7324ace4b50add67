/* What C does where the kernels of crates/lane_kernels are measured: 400 rounds over 1,000,000 numbers, by the first word. */
#include <stdint.h>
#include <stdio.h>
#include <stdlib.h>
#include <string.h>

enum { COUNT = 1000000, ROUNDS = 400 };

static int64_t *all(int64_t number) {
    int64_t *numbers = malloc(COUNT * sizeof *numbers);
    if (numbers == NULL)
        exit(1);
    for (size_t i = 0; i < COUNT; i++)
        numbers[i] = number;
    return numbers;
}

/* Sums that wrap: those of unsigned numbers do. */
__attribute__((noinline)) static void fold(uint64_t *into, const uint64_t *from, size_t count) {
    for (size_t i = 0; i < count; i++)
        into[i] += from[i];
}

int main(int words, char **word) {
    if (words < 2)
        return 1;
    int64_t *into = all(3), *from = all(3);
    int64_t found = 0;
    for (int64_t round = 0; round < ROUNDS; round++) {
        from[0] = round;
        if (!strcmp(word[1], "equal")) {
            into[0] = round;
            found += memcmp(into, from, COUNT * sizeof *into) == 0;
        } else if (!strcmp(word[1], "copy")) {
            memcpy(into, from, COUNT * sizeof *into);
        } else {
            fold((uint64_t *)into, (const uint64_t *)from, COUNT);
        }
    }
    printf("%lld\n", (long long)(found + into[COUNT - 1]));
    return 0;
}
