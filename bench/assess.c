// A plain implementation of the program `assess` for well-formed input, to measure against. It reads model.bin and
// question.bin, parses the model into flat tables, settles and prints. Built with gcc -O3.
#include <stdint.h>
#include <stdio.h>
#include <stdlib.h>
#include <string.h>

enum { STATES = 512, CHOICES = 8, BRANCHES = 65536, ROWS = 16 };

typedef struct {
    int32_t weight, next;
    int32_t reward[4];
} Branch;

typedef struct {
    int64_t ceiling;
    int64_t part[2];
} Row;

static uint8_t file[65536], question[22];
static int states, first, divisor, columns;
static Branch branches[BRANCHES];
static int choice_start[STATES * CHOICES + 1], state_start[STATES + 1];
static int column[2], bound[2];
static int64_t target[2];
static Row work[2][STATES];
static int weights[ROWS][2];
static int64_t points[ROWS][2];
static int rows;

static int word(const uint8_t *p) { return p[0] | p[1] << 8; }

static void parse_model(void) {
    states = word(file), first = word(file + 2), divisor = word(file + 4), columns = file[6];
    int choices = 0, count = 0;
    for (int s = 0; s < states; s++) {
        const uint8_t *p = file + word(file + 8 + 4 * s), *end = p + word(file + 10 + 4 * s);
        state_start[s] = choices;
        while (p < end) {
            choice_start[choices++] = count;
            int n = *p++;
            for (int b = 0; b < n; b++) {
                branches[count].weight = word(p), branches[count].next = word(p + 2);
                for (int c = 0; c < columns; c++) branches[count].reward[c] = (int16_t)word(p + 4 + 2 * c);
                p += 4 + 2 * columns, count++;
            }
        }
    }
    state_start[states] = choices, choice_start[choices] = count;
}

static int64_t floor_div(int64_t a, int64_t d) {
    int64_t q = a / d;
    return a % d < 0 ? q - 1 : q;
}

static int64_t ceiling_div(int64_t a, int64_t d) { return -floor_div(-a, d); }

static int64_t price(int w0, int w1, int *refuted, int64_t *sum) {
    int last = bound[0] > bound[1] ? bound[0] : bound[1];
    memset(work, 0, sizeof work);
    Row *here = work[0], *next = work[1];
    for (int step = last - 1; step >= 0; step--) {
        Row *swap = here;
        here = next, next = swap;
        int64_t g0 = step < bound[0] ? w0 : 0, g1 = step < bound[1] ? w1 : 0;
        int64_t e0 = step < bound[0], e1 = step < bound[1];
        for (int s = 0; s < states; s++) {
            int64_t best = INT64_MIN;
            int taken = 0;
            for (int c = state_start[s]; c < state_start[s + 1]; c++) {
                int64_t total = 0;
                for (int b = choice_start[c]; b < choice_start[c + 1]; b++) {
                    const Branch *br = &branches[b];
                    int64_t earned = g0 * br->reward[column[0]] + g1 * br->reward[column[1]];
                    total += br->weight * (65536 * earned + next[br->next].ceiling);
                }
                int64_t value = ceiling_div(total, divisor);
                if (value > best) best = value, taken = c;
            }
            int64_t t0 = 0, t1 = 0;
            for (int b = choice_start[taken]; b < choice_start[taken + 1]; b++) {
                const Branch *br = &branches[b];
                t0 += br->weight * (65536 * e0 * br->reward[column[0]] + next[br->next].part[0]);
                t1 += br->weight * (65536 * e1 * br->reward[column[1]] + next[br->next].part[1]);
            }
            here[s] = (Row){best, {floor_div(t0, divisor), floor_div(t1, divisor)}};
        }
    }
    weights[rows][0] = w0, weights[rows][1] = w1;
    points[rows][0] = here[first].part[0], points[rows][1] = here[first].part[1];
    rows++;
    *sum = w0 * target[0] + w1 * target[1];
    *refuted = here[first].ceiling < *sum;
    return here[first].ceiling;
}

static int try_price(int w0, int w1) {
    int refuted;
    int64_t sum, ceiling = price(w0, w1, &refuted, &sum);
    if (refuted) printf("refuted\n%d %d\n%lld %lld\n", w0, w1, (long long)ceiling, (long long)sum);
    return refuted;
}

static void settle(void) {
    if (try_price(0, 1000) || try_price(1000, 0)) return;
    int low = 0, high = 1000;
    while (high - low > 1) {
        int a = (low + high) / 2;
        if (try_price(a, 1000 - a)) return;
        if (points[rows - 1][0] >= target[0]) high = a;
        else low = a;
    }
    for (int r = 0; r < rows; r++)
        for (int s = r + 1; s < rows; s++)
            for (int a = 0; a <= 1000; a++) {
                int met = 1;
                for (int i = 0; i < 2; i++) met &= a * points[r][i] + (1000 - a) * points[s][i] >= 1000 * target[i];
                if (!met) continue;
                printf("achieved\n");
                if (a > 0) printf("%d %d %d\n", a, weights[r][0], weights[r][1]);
                if (a < 1000) printf("%d %d %d\n", 1000 - a, weights[s][0], weights[s][1]);
                return;
            }
    printf("open\n");
}

static void read_all(const char *name, uint8_t *into, size_t most) {
    FILE *f = fopen(name, "rb");
    if (!f || fread(into, 1, most, f) == 0) exit(1);
    fclose(f);
}

int main(void) {
    read_all("model.bin", file, sizeof file);
    read_all("question.bin", question, sizeof question);
    parse_model();
    for (int i = 0; i < 2; i++) {
        const uint8_t *p = question + 11 * i;
        column[i] = p[0], bound[i] = word(p + 1);
        uint64_t t = 0;
        for (int b = 7; b >= 0; b--) t = t << 8 | p[3 + b];
        target[i] = (int64_t)t;
    }
    settle();
    return 0;
}
