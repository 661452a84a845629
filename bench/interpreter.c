/* A plain interpreter of RV32IM in C with three plain caches, as a baseline of `cgprof run`: one segment, no stack, and
   the call `exit`. It prints the nine sums. */
#include <inttypes.h>
#include <stdio.h>
#include <stdlib.h>
#include <string.h>

struct cache { uint32_t *lines, assoc, mask; };

static struct cache i1, d1, ll;
static uint8_t *memory; /* the segment's pages */
static uint32_t base, x[32];
static uint64_t sums[9];

static struct cache cache(uint32_t size, uint32_t assoc) {
    struct cache c = { malloc(size / 64 * sizeof(uint32_t)), assoc, size / (assoc * 64) - 1 };
    memset(c.lines, 0xff, size / 64 * sizeof(uint32_t));
    return c;
}

static int refer_block(struct cache *c, uint32_t block) {
    uint32_t *set = c->lines + (size_t)(block & c->mask) * c->assoc, i = 0;
    while (i < c->assoc - 1 && set[i] != block)
        i++;
    int missed = set[i] != block;
    memmove(set + 1, set, i * sizeof *set);
    set[0] = block;
    return missed;
}

static int refer(struct cache *c, uint32_t addr, uint32_t len) {
    uint32_t first = addr / 64, last = (addr + len - 1) / 64;
    int missed = refer_block(c, first);
    return last == first ? missed : missed | refer_block(c, last);
}

static void data(int write, uint32_t addr, uint32_t len) {
    sums[1 + write]++;
    if (refer(&d1, addr, len)) {
        sums[4 + write]++;
        sums[7 + write] += refer(&ll, addr, len);
    }
}

static uint32_t load(uint32_t addr, uint32_t len) {
    uint32_t value = 0;
    memcpy(&value, memory + (addr - base), len);
    return value;
}

static uint32_t extended(uint32_t value, int bits) { return (uint32_t)((int32_t)(value << (32 - bits)) >> (32 - bits)); }

static uint32_t computed(uint32_t kind, int alternate, int multiply, uint32_t a, uint32_t b) {
    int32_t s = (int32_t)a, t = (int32_t)b;
    if (multiply)
        switch (kind) {
        case 0: return a * b;
        case 1: return (uint32_t)((int64_t)s * t >> 32);
        case 2: return (uint32_t)((int64_t)s * (int64_t)b >> 32);
        case 3: return (uint32_t)((uint64_t)a * b >> 32);
        case 4: return b == 0 ? ~0u : a == 1u << 31 && t == -1 ? a : (uint32_t)(s / t);
        case 5: return b == 0 ? ~0u : a / b;
        case 6: return b == 0 ? a : t == -1 ? 0 : (uint32_t)(s % t);
        default: return b == 0 ? a : a % b;
        }
    switch (kind) {
    case 0: return alternate ? a - b : a + b;
    case 1: return a << (b & 31);
    case 2: return s < t;
    case 3: return a < b;
    case 4: return a ^ b;
    case 5: return alternate ? (uint32_t)(s >> (b & 31)) : a >> (b & 31);
    case 6: return a | b;
    default: return a & b;
    }
}

static int taken(uint32_t kind, uint32_t a, uint32_t b) {
    int is = kind < 2 ? a == b : kind < 6 ? (int32_t)a < (int32_t)b : a < b;
    return is != (int)(kind & 1);
}

int main(int argc, char **argv) {
    static const uint32_t lengths[4] = { 1, 2, 4, 4 };
    static uint8_t file[1 << 20];
    FILE *in = argc == 2 ? fopen(argv[1], "rb") : 0;
    if (!in || fread(file, 1, sizeof file, in) < 84)
        return 1;
    uint32_t pc, header[8];
    memcpy(&pc, file + 24, 4);
    memcpy(header, file + 52, 32);
    base = header[2] & ~4095u;
    memory = calloc(1, header[5] + 8192);
    memcpy(memory + (header[2] - base), file + header[1], header[4]);
    i1 = cache(32768, 8), d1 = cache(32768, 8), ll = cache(8388608, 16);
    for (int exited = 0; !exited;) {
        uint32_t word = load(pc, 4), rd = word >> 7 & 31, kind = word >> 12 & 7, next = pc + 4, addr;
        uint32_t a = x[word >> 15 & 31], b = x[word >> 20 & 31], imm = (uint32_t)((int32_t)word >> 20), value = x[rd];
        sums[0]++;
        if (refer(&i1, pc, 4)) {
            sums[3]++;
            sums[6] += refer(&ll, pc, 4);
        }
        switch (word & 127) {
        case 0x37: value = word & 0xfffff000; break;
        case 0x17: value = pc + (word & 0xfffff000); break;
        case 0x6f:
            value = next;
            next = pc + extended((word >> 31) << 20 | (word >> 12 & 255) << 12 | (word >> 20 & 1) << 11 | (word >> 21 & 1023) << 1, 21);
            break;
        case 0x67: value = next, next = (a + imm) & ~1u; break;
        case 0x63:
            if (taken(kind, a, b))
                next = pc + extended((word >> 31) << 12 | (word >> 7 & 1) << 11 | (word >> 25 & 63) << 5 | (word >> 8 & 15) << 1, 13);
            break;
        case 0x03:
            addr = a + imm;
            data(0, addr, lengths[kind & 3]);
            value = load(addr, lengths[kind & 3]);
            if (kind < 2)
                value = extended(value, 8 << kind);
            break;
        case 0x23:
            addr = a + ((imm & ~31u) | rd);
            data(1, addr, lengths[kind & 3]);
            memcpy(memory + (addr - base), &b, lengths[kind & 3]);
            value = x[rd];
            break;
        case 0x13: value = computed(kind, kind == 5 && word >> 30 & 1, 0, a, imm); break;
        case 0x33: value = computed(kind, word >> 30 & 1, word >> 25 & 1, a, b); break;
        case 0x73:
            if (word != 0x73 || x[17] != 93)
                return 1;
            exited = 1;
            break;
        default: return 1;
        }
        x[rd] = value;
        x[0] = 0;
        pc = next;
    }
    for (int i = 0; i < 9; i++)
        printf("%s%" PRIu64, i ? " " : "totals: ", sums[i]);
    printf("\n");
    return 0;
}
