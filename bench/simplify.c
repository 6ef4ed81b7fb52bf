/* The baseline of bench/simplify.sh: the same lists of linear constraints, simplified by a plain
   program. It keeps the places of each signal, and a tree of marks over the constraints that fit, and
   does the field's sums as the library does. Usage: simplify LEVEL SIGNALS TIMES */
#include <stdint.h>
#include <stdio.h>
#include <stdlib.h>
#include <string.h>

#define P 0xffffffff00000001ULL
#define EPSILON 0xffffffffULL

static uint64_t add(uint64_t a, uint64_t b) {
    uint64_t gap = P - b;
    return a < gap ? a + b : a - gap;
}

static uint64_t sub(uint64_t a, uint64_t b) {
    return b <= a ? a - b : P - b + a;
}

static uint64_t reduced(uint64_t n) {
    return n >= P ? n - P : n;
}

static uint64_t mul(uint64_t a, uint64_t b) {
    unsigned __int128 n = (unsigned __int128)a * b;
    uint64_t low = (uint64_t)n, middle = (uint64_t)(n >> 64) & EPSILON, high = (uint64_t)(n >> 96);
    return sub(add(reduced(low), reduced(middle * EPSILON)), high);
}

static uint64_t inverse(uint64_t a) {
    uint64_t power = 1;
    for (uint64_t bits = P - 2; bits > 0; bits >>= 1, a = mul(a, a))
        if (bits & 1) power = mul(power, a);
    return power;
}

struct term { uint32_t signal; uint64_t coef; };
struct form { uint32_t count; struct term *terms; };
struct places { uint32_t count, room; uint32_t *items; };

static uint32_t level, signals, kept, rows;
static struct form *list;
static struct places *holders;
/* 64 marks a word, and above each word a mark in the next row of the tree */
static uint64_t *marks[4];

static void *room(size_t bytes) {
    void *made = malloc(bytes > 0 ? bytes : 1);
    if (made == NULL) exit(1);
    return made;
}

static void set_mark(uint32_t place) {
    for (int row = 0; row < 4; row++, place /= 64) marks[row][place / 64] |= 1ULL << place % 64;
}

static void clear_mark(uint32_t place) {
    for (int row = 0; row < 4; row++, place /= 64) {
        marks[row][place / 64] &= ~(1ULL << place % 64);
        if (marks[row][place / 64] != 0) return;
    }
}

/* the least mark, or -1 */
static int64_t least_mark(void) {
    uint64_t place = 0;
    for (int row = 3; row >= 0; row--) {
        if (marks[row][place] == 0) return -1;
        place = place * 64 + (uint64_t)__builtin_ctzll(marks[row][place]);
    }
    return (int64_t)place;
}

static int fits(const struct form *f) {
    if (f->count == 0 || f->count > 1024 || f->terms[f->count - 1].signal <= kept) return 0;
    if (level == 2) return 1;
    if (f->count == 1) return f->terms[0].signal != 0;
    return f->count == 2 && (f->terms[0].signal == 0 || add(f->terms[0].coef, f->terms[1].coef) == 0);
}

static void hold(uint32_t signal, uint32_t place) {
    struct places *p = &holders[signal];
    if (p->count == p->room) {
        p->room = p->room > 0 ? p->room * 2 : 4;
        p->items = realloc(p->items, p->room * sizeof *p->items);
        if (p->items == NULL) exit(1);
    }
    p->items[p->count++] = place;
}

/* puts a form at a place, and notes it at the signals that the old one lacks */
static void put(uint32_t place, struct form new) {
    const struct form old = list[place];
    for (uint32_t i = 0, j = 0; i < new.count; i++) {
        while (j < old.count && old.terms[j].signal < new.terms[i].signal) j++;
        if (j == old.count || old.terms[j].signal != new.terms[i].signal) hold(new.terms[i].signal, place);
    }
    free(old.terms);
    list[place] = new;
    if (fits(&new)) set_mark(place); else clear_mark(place);
}

/* f and k times g, without g's signal `gone` */
static struct form combined(struct form f, uint64_t k, struct form g, uint32_t gone) {
    struct form sum = {0, room((f.count + g.count) * sizeof(struct term))};
    for (uint32_t i = 0, j = 0; i < f.count || j < g.count;) {
        struct term t;
        if (j == g.count || (i < f.count && f.terms[i].signal < g.terms[j].signal)) {
            t = f.terms[i++];
        } else if (i == f.count || g.terms[j].signal < f.terms[i].signal) {
            t.signal = g.terms[j].signal; t.coef = mul(k, g.terms[j++].coef);
        } else {
            t.signal = f.terms[i].signal; t.coef = add(f.terms[i++].coef, mul(k, g.terms[j++].coef));
        }
        if (t.coef != 0 && t.signal != gone) sum.terms[sum.count++] = t;
    }
    return sum;
}

/* solves the constraint for its greatest signal, and puts the solution in wherever that is named */
static void solve(uint32_t place) {
    struct form f = list[place];
    uint32_t signal = f.terms[f.count - 1].signal;
    uint64_t factor = sub(0, inverse(f.terms[f.count - 1].coef));
    struct form none = {0, NULL};
    list[place] = none;
    clear_mark(place);
    struct places all = holders[signal];
    for (uint32_t i = 0; i < all.count; i++) {
        struct form g = list[all.items[i]];
        for (uint32_t j = 0; j < g.count; j++)
            if (g.terms[j].signal == signal) {
                put(all.items[i], combined(g, mul(factor, g.terms[j].coef), f, signal));
                break;
            }
    }
    free(f.terms);
}

/* the constraint `place`: a signal less the one or two before it, or the output less the last */
static struct form constraint(uint32_t place) {
    uint32_t count = place + 1 < rows ? level + 1 : 2;
    struct form f = {count, room(count * sizeof(struct term))};
    for (uint32_t i = 0; i + 1 < count; i++) f.terms[i] = (struct term){place + 2 + i, P - 1};
    f.terms[count - 1] = (struct term){place + level + 2, 1};
    if (place + 1 == rows) {
        f.terms[0] = (struct term){1, 1};
        f.terms[1] = (struct term){signals, P - 1};
    }
    return f;
}

static void simplify(void) {
    list = calloc(rows, sizeof *list);
    holders = calloc(signals + 1, sizeof *holders);
    for (uint32_t row = 0, size = rows; row < 4; row++) {
        size = size / 64 + 1;
        marks[row] = calloc(size, sizeof **marks);
        if (marks[row] == NULL) exit(1);
    }
    if (list == NULL || holders == NULL) exit(1);
    for (uint32_t place = 0; place < rows; place++) put(place, constraint(place));
    uint32_t solved = 0, left = 0;
    for (int64_t place; (place = least_mark()) >= 0; solved++) solve((uint32_t)place);
    for (uint32_t place = 0; place < rows; place++) left += list[place].count > 0;
    printf("%u %u %u\n", rows, left, solved);
    for (uint32_t place = 0; place < rows; place++) free(list[place].terms);
    for (uint32_t signal = 0; signal <= signals; signal++) free(holders[signal].items);
    for (int row = 0; row < 4; row++) free(marks[row]);
    free(holders);
    free(list);
}

int main(int argc, char **argv) {
    if (argc < 4) return 1;
    level = (uint32_t)atoi(argv[1]);
    signals = (uint32_t)atoi(argv[2]);
    kept = level + 1;
    rows = signals - kept + 1;
    for (int times = atoi(argv[3]); times > 0; times--) simplify();
    return 0;
}
