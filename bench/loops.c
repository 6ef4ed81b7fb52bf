// The loops of the program `bench`, written plainly in C: the same calls, arguments and checksums.
#include <stdint.h>
#include <stdio.h>
#include <stdlib.h>
#include <string.h>

#define P 18446744069414584321ull
#define EPSILON 4294967295ull

static uint64_t add(uint64_t a, uint64_t b) {
    uint64_t gap = P - b;
    return a < gap ? a + b : a - gap;
}

static uint64_t sub(uint64_t a, uint64_t b) {
    return b <= a ? a - b : P - b + a;
}

static uint64_t reduce(unsigned __int128 n) {
    uint64_t low = (uint64_t)n, middle = (uint32_t)(n >> 64), high = (uint64_t)(n >> 96);
    uint64_t t = low - high;
    if (low < high)
        t -= EPSILON;
    uint64_t m = middle * EPSILON;
    uint64_t r = t + m;
    if (r < m)
        r += EPSILON;
    return r >= P ? r - P : r;
}

static uint64_t mul(uint64_t a, uint64_t b) {
    return reduce((unsigned __int128)a * b);
}

static uint64_t power(uint64_t a, uint64_t e) {
    uint64_t r = 1;
    for (; e; e >>= 1) {
        if (e & 1)
            r = mul(r, a);
        a = mul(a, a);
    }
    return r;
}

static uint64_t shl(uint64_t a, uint64_t k) {
    uint64_t n = k < 64 ? a << k : 0;
    return n >= P ? n - P : n;
}

static void ntt(uint64_t *a, int log, uint64_t root) {
    size_t n = (size_t)1 << log;
    for (size_t i = 0, j = 0; i < n; i++) {
        if (i < j) {
            uint64_t t = a[i];
            a[i] = a[j];
            a[j] = t;
        }
        size_t bit = n >> 1;
        for (; bit && (j & bit); bit >>= 1)
            j ^= bit;
        j |= bit;
    }
    for (int s = 1; s <= log; s++) {
        size_t half = (size_t)1 << (s - 1);
        uint64_t w = root;
        for (int i = s; i < log; i++)
            w = mul(w, w);
        for (size_t start = 0; start < n; start += 2 * half) {
            uint64_t twiddle = 1;
            for (size_t j = start; j < start + half; j++) {
                uint64_t even = a[j], odd = mul(twiddle, a[j + half]);
                a[j] = add(even, odd);
                a[j + half] = sub(even, odd);
                twiddle = mul(twiddle, w);
            }
        }
    }
}

int main(int argc, char **argv) {
    if (argc < 4)
        return 1;
    const uint64_t first = 123456789012345678ull;
    uint64_t size = strtoull(argv[2], 0, 10), times = strtoull(argv[3], 0, 10), x = first;
    if (!strcmp(argv[1], "mul")) {
        for (uint64_t i = 0; i < times; i++)
            x = mul(x, x);
    } else if (!strcmp(argv[1], "inv")) {
        for (uint64_t i = 0; i < times; i++)
            x = add(power(x, P - 2), 1);
    } else if (!strcmp(argv[1], "shift")) {
        for (uint64_t i = 0; i < times; i++)
            x = add(shl(x, i % 64), first);
    } else if (!strcmp(argv[1], "ntt")) {
        int log = (int)size;
        size_t n = (size_t)1 << log;
        uint64_t *a = malloc(n * sizeof *a);
        for (size_t i = 0; i < n; i++) {
            a[i] = x;
            x = mul(x, x);
        }
        uint64_t root = 1753635133440165772ull;
        for (int i = log; i < 32; i++)
            root = mul(root, root);
        for (uint64_t i = 0; i < times; i++)
            ntt(a, log, root);
        ntt(a, log, power(root, n - 1));
        uint64_t scale = power(9223372034707292161ull, (uint64_t)log);
        x = 0;
        for (size_t i = 0; i < n; i++)
            x = add(x, mul(a[i], scale));
        free(a);
    }
    printf("%llu\n", (unsigned long long)x);
    return 0;
}
