// The third pass on 2^18 rows (or 2^N, N given): nanoseconds a row for helper cells below 128, from 128 to 1,023, below 1,024, below 2^32, and any;
// the best of nine.
#include <stdint.h>
#include <stdio.h>
#include <stdlib.h>
#include <string.h>
#include <time.h>
extern uint32_t core_invert_helper_column(uint64_t *cells, size_t length, size_t rows);
static const uint64_t P = 18446744069414584321u;
static uint64_t seed = 7;
static uint64_t random64(void) {
    uint64_t z = seed += 0x9e3779b97f4a7c15u;
    z = (z ^ (z >> 30)) * 0xbf58476d1ce4e5b9u;
    z = (z ^ (z >> 27)) * 0x94d049bb133111ebu;
    return z ^ (z >> 31);
}
static int is_inverse(uint64_t x, uint64_t y) {
    return x == 0 ? y == 0 : y < P && (unsigned __int128)x * y % P == 1;
}
static double now(void) {
    struct timespec t;
    clock_gettime(CLOCK_THREAD_CPUTIME_ID, &t);
    return t.tv_sec * 1e9 + t.tv_nsec;
}
static double best_of_nine(const uint64_t *start, uint64_t *cells, size_t rows) {
    double best = 1e18;
    for (int turn = 0; turn < 9; turn++) {
        memcpy(cells, start, rows * 49 * 8);
        double t = now();
        if (core_invert_helper_column(cells, rows * 49, rows)) puts(" refused"), exit(2);
        t = now() - t;
        if (t < best) best = t;
    }
    return best / rows;
}
int main(int count, char **words) {
    size_t rows = (size_t)1 << (count > 1 ? atoi(words[1]) : 18);
    uint64_t *start = calloc(rows * 49, 8), *cells = malloc(rows * 49 * 8);
    uint64_t least[5] = {0, 128, 0, 0, 0}, limit[5] = {128, 1024, 1024, 4294967296, P};
    for (int k = 0; k < 5; k++) {
        for (size_t row = 0; row < rows; row++) start[49 * row + 48] = least[k] + random64() % (limit[k] - least[k]);
        double best = best_of_nine(start, cells, rows);
        for (size_t at = 0; at < rows * 49; at++)
            if (at % 49 == 48 ? !is_inverse(start[at], cells[at]) : cells[at] != start[at]) return puts(" wrong"), 1;
        printf(" %.2f", best);
    }
    puts("");
}
