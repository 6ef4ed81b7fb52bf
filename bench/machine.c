/* The baseline of bench/machine.sh: the same loop, interpreted by a plain machine with a `switch` over
   the same instructions, an operator being a part of its instruction. It has the instructions that
   the loop uses, one frame and no calls, and does the field's sums as the library does.
   Usage: machine TURNS */
#include <inttypes.h>
#include <stdint.h>
#include <stdio.h>
#include <stdlib.h>
#include <time.h>

#define P 0xffffffff00000001ULL
#define EPSILON 0xffffffffULL

enum kind { CONST, MOVE, BIN, BOUND, LOAD, STORE, JUMP, JUMP_ZERO, TURN, WRITE, END };
enum operator { ADD, SUB, MUL, QUOT, REM, AND, XOR, OR, LESS, EQUAL };

struct op {
    uint8_t kind, operator;
    uint32_t a, b, c;
};

static uint64_t add(uint64_t a, uint64_t b) {
    uint64_t gap = P - b;
    return a < gap ? a + b : a - gap;
}

static uint64_t sub(uint64_t a, uint64_t b) {
    return b <= a ? a - b : P - b + a;
}

static uint64_t reduced(uint64_t n) {
    return n >= P ? n - P : n;
}

static uint64_t mul(uint64_t a, uint64_t b) {
    unsigned __int128 n = (unsigned __int128)a * b;
    uint64_t low = (uint64_t)n, middle = (uint64_t)(n >> 64) & EPSILON, high = (uint64_t)(n >> 96);
    return sub(add(reduced(low), reduced(middle * EPSILON)), high);
}

static int is_less(uint64_t a, uint64_t b) {
    /* by signed values: above (p - 1) / 2 a number is negative */
    int negative_a = a > P / 2, negative_b = b > P / 2;
    return negative_a == negative_b ? a < b : negative_a;
}

static int binary(uint8_t operator, uint64_t a, uint64_t b, uint64_t *to) {
    switch (operator) {
    case ADD: *to = add(a, b); return 1;
    case SUB: *to = sub(a, b); return 1;
    case MUL: *to = mul(a, b); return 1;
    case QUOT: if (b == 0) return 0; *to = a / b; return 1;
    case REM: if (b == 0) return 0; *to = a % b; return 1;
    case AND: *to = reduced(a & b); return 1;
    case XOR: *to = reduced(a ^ b); return 1;
    case OR: *to = reduced(a | b); return 1;
    case LESS: *to = (uint64_t)is_less(a, b); return 1;
    default: *to = a == b; return 1;
    }
}

static int run(const struct op *code, uint64_t *slots, uint64_t width, uint64_t units, uint64_t *out) {
    for (uint64_t place = 0;;) {
        const struct op *op = &code[place];
        switch (op->kind) {
        case CONST: slots[op->a] = op->b; place++; break;
        case MOVE: slots[op->a] = slots[op->b]; place++; break;
        case BIN:
            if (!binary(op->operator, slots[op->b], slots[op->c], &slots[op->a])) return 3;
            place++;
            break;
        case BOUND: if (slots[op->a] >= op->b) return 4; place++; break;
        case LOAD: {
            uint64_t at = op->b + slots[op->c];
            if (at >= width) return 4;
            slots[op->a] = slots[at]; place++; break;
        }
        case STORE: {
            uint64_t at = op->a + slots[op->b];
            if (at >= width) return 4;
            slots[at] = slots[op->c]; place++; break;
        }
        case JUMP: place = op->a; break;
        case JUMP_ZERO: place = slots[op->a] == 0 ? op->b : place + 1; break;
        case TURN: if (units == 0) return 5; units--; place++; break;
        case WRITE: *out = slots[op->a]; place++; break;
        default: return 0;
        }
    }
}

int main(int argc, char **argv) {
    uint64_t turns = argc > 1 ? strtoull(argv[1], 0, 10) : 10000000, out = 0;
    uint64_t slots[12] = {0};
    /* slot 0: turns left, 1: one, 2: the sum, 3: a product, 4: a test, 5: a place, 8 to 11: an array */
    const struct op code[] = {
        {CONST, 0, 0, (uint32_t)turns, 0}, {CONST, 0, 1, 1, 0}, {CONST, 0, 3, 3, 0}, {CONST, 0, 5, 2, 0},
        {TURN, 0, 0, 0, 0}, {JUMP_ZERO, 0, 0, 14, 0}, {BIN, SUB, 0, 0, 1}, {BIN, MUL, 3, 3, 3},
        {BIN, ADD, 2, 2, 3}, {BOUND, 0, 5, 4, 0}, {STORE, 0, 8, 5, 2}, {LOAD, 0, 4, 8, 5},
        {BIN, LESS, 6, 4, 3}, {JUMP, 0, 4, 0, 0}, {WRITE, 0, 2, 0, 0}, {END, 0, 0, 0, 0},
    };
    struct timespec from, to;
    clock_gettime(CLOCK_MONOTONIC, &from);
    int stop = run(code, slots, 12, turns + 1, &out);
    clock_gettime(CLOCK_MONOTONIC, &to);
    double seconds = (double)(to.tv_sec - from.tv_sec) + 1e-9 * (double)(to.tv_nsec - from.tv_nsec);
    printf("%d %" PRIu64 "\n%.3f\n", stop, out, seconds);
    return 0;
}
