/* The yardstick: a plain checker of a .r1cs and a .wtns file, with the same refusals in short form.

   usage: plain_check R1CS WTNS */
#include <inttypes.h>
#include <stdio.h>
#include <stdlib.h>
#include <string.h>

#define P UINT64_C(0xffffffff00000001)
#define EPSILON UINT64_C(0xffffffff)

struct bytes {
    const uint8_t *at, *end;
};

static void refuse(const char *why)
{
    printf("refused: %s\n", why);
    exit(1);
}

static struct bytes whole(const char *name)
{
    FILE *f = fopen(name, "rb");
    if (!f || fseek(f, 0, SEEK_END))
        refuse(name);
    long size = ftell(f);
    rewind(f);
    uint8_t *bytes = malloc((size_t)size + 1);
    if (!bytes || fread(bytes, 1, (size_t)size, f) != (size_t)size)
        refuse(name);
    fclose(f);
    return (struct bytes){bytes, bytes + size};
}

static uint32_t take32(struct bytes *b)
{
    uint32_t n;
    if (b->end - b->at < 4)
        refuse("truncated");
    memcpy(&n, b->at, 4);
    b->at += 4;
    return n;
}

static uint64_t take64(struct bytes *b)
{
    uint64_t n;
    if (b->end - b->at < 8)
        refuse("truncated");
    memcpy(&n, b->at, 8);
    b->at += 8;
    return n;
}

/* The bodies of sections 1 to 3. */
static void sections(struct bytes file, const char *magic, uint32_t version, struct bytes body[4])
{
    if (file.end - file.at < 4 || memcmp(file.at, magic, 4))
        refuse("magic");
    file.at += 4;
    if (take32(&file) != version)
        refuse("version");
    for (uint32_t n = take32(&file); n > 0; n--) {
        uint32_t kind = take32(&file);
        uint64_t size = take64(&file);
        if (size > (uint64_t)(file.end - file.at))
            refuse("truncated");
        if (kind >= 1 && kind <= 3)
            body[kind] = (struct bytes){file.at, file.at + size};
        file.at += size;
    }
    if (file.at != file.end || !body[1].at || !body[2].at)
        refuse("sections");
}

static void field(struct bytes *b)
{
    if (take32(b) != 8 || take64(b) != P)
        refuse("prime");
}

static uint64_t reduced(unsigned __int128 n)
{
    uint64_t low = (uint64_t)n, high = (uint64_t)(n >> 64), top = high >> 32, middle = high & EPSILON;
    uint64_t difference = low - top;
    if (low < top)
        difference -= EPSILON;
    uint64_t product = middle * EPSILON, sum = difference + product;
    if (sum < product)
        sum += EPSILON;
    return sum >= P ? sum - P : sum;
}

static uint64_t form(struct bytes *b, const uint64_t *w, uint32_t wires)
{
    uint64_t sum = 0;
    for (uint32_t n = take32(b); n > 0; n--) {
        uint32_t wire = take32(b);
        uint64_t coefficient = take64(b);
        if (wire >= wires || coefficient >= P)
            refuse("term");
        sum = reduced((unsigned __int128)coefficient * w[wire] + sum);
    }
    return sum;
}

int main(int argc, char **argv)
{
    if (argc != 3)
        return 64;
    struct bytes r1cs[4] = {{0}}, wtns[4] = {{0}};
    sections(whole(argv[1]), "r1cs", 1, r1cs);
    sections(whole(argv[2]), "wtns", 2, wtns);

    field(&wtns[1]);
    uint32_t count = take32(&wtns[1]);
    uint64_t *w = malloc((count + UINT64_C(1)) * sizeof *w);
    if (!w)
        return 4;
    for (uint32_t i = 0; i < count; i++) {
        w[i] = take64(&wtns[2]);
        if (w[i] >= P)
            refuse("value");
    }

    field(&r1cs[1]);
    uint32_t wires = take32(&r1cs[1]);
    r1cs[1].at += 20;
    uint32_t constraints = take32(&r1cs[1]);
    if (count != wires)
        refuse("counts");
    if (count == 0 || w[0] != 1) {
        puts("unsatisfied: wire 0");
        return 2;
    }
    for (uint32_t i = 0; i < constraints; i++) {
        uint64_t a = form(&r1cs[2], w, wires), b = form(&r1cs[2], w, wires), c = form(&r1cs[2], w, wires);
        if (reduced((unsigned __int128)a * b) != c) {
            printf("unsatisfied: constraint %" PRIu32 "\n", i);
            return 2;
        }
    }
    puts("satisfied");
    return 0;
}
