/* The same references as `bench cache`, over a plain cache in C: the blocks of each set lie newest first. And the same
   branches as `bench branches`, over plain predictors. */
#include <inttypes.h>
#include <stdio.h>
#include <stdlib.h>
#include <string.h>

static uint32_t *lines, assoc, line_bits, set_mask;

static int refer_block(uint32_t block) {
    uint32_t *set = lines + (size_t)(block & set_mask) * assoc;
    if (set[0] == block)
        return 0;
    for (uint32_t i = 1; i < assoc; i++)
        if (set[i] == block) {
            for (uint32_t j = i; j > 0; j--)
                set[j] = set[j - 1];
            set[0] = block;
            return 0;
        }
    for (uint32_t j = assoc - 1; j > 0; j--)
        set[j] = set[j - 1];
    set[0] = block;
    return 1;
}

static int refer(uint32_t addr, uint32_t len) {
    uint32_t first = addr >> line_bits, last = (addr + len - 1) >> line_bits;
    int missed = refer_block(first);
    return last == first ? missed : missed | refer_block(last);
}

static uint8_t counts[16384];
static uint32_t addresses[512];

/* Each event costs thirteen numbers, as it does in `bench branches`. */
struct cost { uint64_t n[13]; };

__attribute__((noinline)) static struct cost predict(char kind, uint32_t pc, int taken, uint32_t next) {
    struct cost cost = {0};
    if (kind == 'c') {
        uint8_t *count = counts + pc / 4 % 16384;
        cost.n[9] = 1, cost.n[10] = (*count >= 2) != taken;
        if (taken)
            *count += *count < 3;
        else
            *count -= *count > 0;
    } else if (kind == 'i') {
        uint32_t *address = addresses + pc / 4 % 512;
        cost.n[11] = 1, cost.n[12] = *address != next;
        *address = next;
    }
    return cost;
}

static int branches(char kind, uint64_t events) {
    uint64_t failed = 0;
    uint32_t word = 0;
    for (uint64_t i = 0; i < events; i++) {
        word = word * 1664525 + 1013904223;
        struct cost cost = predict(kind, word / 0x1000 % 0x10000 * 4, word / 0x400 % 4 != 0, word / 0x800 % 2 * 4);
        failed += cost.n[10] + cost.n[12];
    }
    printf("%" PRIu64 "\n", failed);
    return 0;
}

int main(int argc, char **argv) {
    if (argc == 3)
        return branches(argv[1][0], strtoull(argv[2], 0, 10));
    if (argc != 6)
        return 1;
    uint32_t size = strtoul(argv[1], 0, 10), line = strtoul(argv[3], 0, 10);
    assoc = strtoul(argv[2], 0, 10);
    while (1u << line_bits < line)
        line_bits++;
    set_mask = size / (assoc * line) - 1;
    lines = malloc((size_t)(set_mask + 1) * assoc * sizeof *lines);
    if (!lines)
        return 1;
    memset(lines, 0xff, (size_t)(set_mask + 1) * assoc * sizeof *lines);
    char pattern = argv[4][1] == 't' ? 't' : argv[4][0]; /* s, r or t */
    uint64_t missed = 0, references = strtoull(argv[5], 0, 10);
    uint32_t state = 0;
    for (uint64_t i = 0; i < references; i++) {
        uint32_t addr;
        if (pattern == 'r')
            state = state * 1664525 + 1013904223, addr = state / 1024 * 4;
        else if (pattern == 't')
            state += 64, addr = state + 62;
        else
            addr = state += 4;
        missed += refer(addr % 0x1000000, 4);
    }
    printf("%" PRIu64 "\n", missed);
    return 0;
}
