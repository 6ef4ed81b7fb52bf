/* Makes a satisfied .r1cs and .wtns of a given number of constraints.

   usage: make_circuit CONSTRAINTS R1CS WTNS

   Each constraint is (a x) (b y) = z, with a new wire z, wires x and y before it, and coefficients a and b of the
   field: three terms. The numbers come from a fixed generator, so a size always gives the same files. */
#include <inttypes.h>
#include <stdio.h>
#include <stdlib.h>

#define P UINT64_C(0xffffffff00000001)
#define GIVEN 3 /* wire 0 and two inputs */

static uint64_t state = UINT64_C(0x9e3779b97f4a7c15);

static uint64_t number(void)
{
    state ^= state << 13;
    state ^= state >> 7;
    state ^= state << 17;
    return state % P;
}

static uint64_t mul(uint64_t a, uint64_t b)
{
    return (uint64_t)((unsigned __int128)a * b % P);
}

static void put32(FILE *f, uint32_t n)
{
    for (int i = 0; i < 4; i++)
        putc((int)(n >> (8 * i) & 0xff), f);
}

static void put64(FILE *f, uint64_t n)
{
    for (int i = 0; i < 8; i++)
        putc((int)(n >> (8 * i) & 0xff), f);
}

static void section(FILE *f, uint32_t kind, uint64_t size)
{
    put32(f, kind);
    put64(f, size);
}

static void form(FILE *f, uint32_t wire, uint64_t coefficient)
{
    put32(f, 1);
    put32(f, wire);
    put64(f, coefficient);
}

static FILE *created(const char *name)
{
    FILE *f = fopen(name, "wb");
    if (!f) {
        perror(name);
        exit(1);
    }
    return f;
}

int main(int argc, char **argv)
{
    if (argc != 4) {
        fputs("usage: make_circuit CONSTRAINTS R1CS WTNS\n", stderr);
        return 64;
    }
    uint32_t constraints = (uint32_t)strtoul(argv[1], NULL, 10);
    uint32_t wires = constraints + GIVEN;
    uint64_t *values = malloc(wires * sizeof *values);
    if (!values)
        return 1;
    values[0] = 1;
    for (uint32_t i = 1; i < GIVEN; i++)
        values[i] = number();

    FILE *r1cs = created(argv[2]);
    fwrite("r1cs", 1, 4, r1cs);
    put32(r1cs, 1);
    put32(r1cs, 3);
    section(r1cs, 1, 40);
    put32(r1cs, 8);
    put64(r1cs, P);
    put32(r1cs, wires);
    put32(r1cs, 0);
    put32(r1cs, 0);
    put32(r1cs, GIVEN - 1);
    put64(r1cs, wires);
    put32(r1cs, constraints);
    section(r1cs, 2, UINT64_C(48) * constraints);
    for (uint32_t i = 0; i < constraints; i++) {
        uint32_t z = GIVEN + i, x = (uint32_t)(number() % z), y = (uint32_t)(number() % z);
        uint64_t a = 1 + number() % (P - 1), b = 1 + number() % (P - 1);
        form(r1cs, x, a);
        form(r1cs, y, b);
        form(r1cs, z, 1);
        values[z] = mul(mul(a, values[x]), mul(b, values[y]));
    }
    section(r1cs, 3, UINT64_C(8) * wires);
    for (uint32_t i = 0; i < wires; i++)
        put64(r1cs, i);

    FILE *wtns = created(argv[3]);
    fwrite("wtns", 1, 4, wtns);
    put32(wtns, 2);
    put32(wtns, 2);
    section(wtns, 1, 16);
    put32(wtns, 8);
    put64(wtns, P);
    put32(wtns, wires);
    section(wtns, 2, UINT64_C(8) * wires);
    for (uint32_t i = 0; i < wires; i++)
        put64(wtns, values[i]);
    if (fclose(r1cs) || fclose(wtns)) {
        perror("make_circuit");
        return 1;
    }
    return 0;
}
