// Times the proved transforms at the flat store against a plain row-wise loop in C, in one run; best of several.
// Both work on the same records (a number and a bit, 8 bytes), and the results are compared.
#include <stdbool.h>
#include <stdint.h>
#include <stdio.h>
#include <stdlib.h>
#include <string.h>
#include <time.h>

typedef struct { int32_t number; bool bit; } Cell;

void forward_five_three(Cell *cells, size_t length, size_t rows, size_t columns, size_t levels);
void inverse_five_three(Cell *cells, size_t length, size_t rows, size_t columns, size_t levels);
void forward_s_transform(Cell *cells, size_t length, size_t rows, size_t columns, size_t levels);
void inverse_s_transform(Cell *cells, size_t length, size_t rows, size_t columns, size_t levels);
void forward_chosen(Cell *cells, size_t length, size_t rows, size_t columns, size_t levels, bool five_three);

// The plain loop: row by row, the column step row against row, on plain numbers.
static size_t left_of(size_t i) { return i == 0 ? 1 : i - 1; }
static size_t right_of(size_t n, size_t i) { return i + 1 < n ? i + 1 : i - 1; }

static void plain_step(int32_t *x, size_t pitch, size_t stride, size_t rows, size_t columns, bool down, size_t parity) {
    size_t n = down ? rows : columns;
    if (n < 2) return;
    if (down) {
        for (size_t r = parity; r < rows; r += 2) {
            int32_t *here = x + r * pitch, *above = x + left_of(r) * pitch, *below = x + right_of(rows, r) * pitch;
            for (size_t c = 0; c < columns; c++) {
                int32_t a = above[c * stride], b = below[c * stride];
                if (parity) here[c * stride] -= (a + b) >> 1; else here[c * stride] += (a + b + 2) >> 2;
            }
        }
    } else {
        for (size_t r = 0; r < rows; r++) {
            int32_t *line = x + r * pitch;
            for (size_t c = parity; c < columns; c += 2) {
                int32_t a = line[left_of(c) * stride], b = line[right_of(columns, c) * stride];
                if (parity) line[c * stride] -= (a + b) >> 1; else line[c * stride] += (a + b + 2) >> 2;
            }
        }
    }
}

static void plain_forward(int32_t *x, size_t rows, size_t columns, size_t levels) {
    for (size_t k = 0; k < levels; k++) {
        size_t step = (size_t)1 << k, h = (rows + step - 1) >> k, w = (columns + step - 1) >> k;
        plain_step(x, columns * step, step, h, w, true, 1);
        plain_step(x, columns * step, step, h, w, true, 0);
        plain_step(x, columns * step, step, h, w, false, 1);
        plain_step(x, columns * step, step, h, w, false, 0);
    }
}

static double now(void) {
    struct timespec t;
    clock_gettime(CLOCK_MONOTONIC, &t);
    return t.tv_sec + 1e-9 * t.tv_nsec;
}

int main(int argc, char **argv) {
    size_t side = argc > 1 ? (size_t)atol(argv[1]) : 4096, levels = 5, area = side * side;
    int runs = argc > 2 ? atoi(argv[2]) : 3;
    int32_t *plain = malloc(area * sizeof *plain);
    Cell *cells = malloc(area * sizeof *cells), *samples = malloc(area * sizeof *samples);
    uint32_t seed = 12345;
    for (size_t i = 0; i < area; i++) {
        seed = seed * 1664525u + 1013904223u;
        samples[i] = (Cell){ (int32_t)(seed >> 16) % 36368, false };
    }
    double best[6] = { 1e9, 1e9, 1e9, 1e9, 1e9, 1e9 };
    for (int run = 0; run < runs; run++) {
        for (int what = 0; what < 6; what++) {
            if (what == 0) for (size_t i = 0; i < area; i++) plain[i] = samples[i].number;
            else if (what == 1 || what == 3 || what == 5) memcpy(cells, samples, area * sizeof *cells);
            double start = now();
            switch (what) {
            case 0: plain_forward(plain, side, side, levels); break;
            case 1: forward_five_three(cells, area, side, side, levels); break;
            case 2: inverse_five_three(cells, area, side, side, levels); break;
            case 3: forward_s_transform(cells, area, side, side, levels); break;
            case 4: inverse_s_transform(cells, area, side, side, levels); break;
            case 5: forward_chosen(cells, area, side, side, levels, true); break;
            }
            double took = now() - start;
            if (took < best[what]) best[what] = took;
            size_t differences = 0;
            for (size_t i = 0; i < area; i++) {
                if (what == 1 || what == 5) differences += cells[i].number != plain[i];
                if (what == 2 || what == 4) differences += cells[i].number != samples[i].number;
            }
            if (differences) { printf("%zu cells differ\n", differences); return 1; }
        }
    }
    const char *names[6] = { "plain C, forward 5/3", "forward 5/3", "inverse 5/3", "forward S", "inverse S", "forward 5/3 chosen at run time" };
    for (int what = 0; what < 6; what++) printf("%-32s %8.1f ms  %6.2f\n", names[what], 1e3 * best[what], best[what] / best[0]);
    return 0;
}
