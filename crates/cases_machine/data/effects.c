/* Says the rows of the scene `step` of ../stdin that take their values from C: an instruction's word with the registers, the
   memory and the reservation before it, and what it leaves. The effects are those of C's own integers, by the RISC-V
   unprivileged manual; nothing of the simulator is used. cc -O1 -fwrapv -o effects effects.c, and then ./effects prints
   the lines of ../stdin, and ./effects answers those of ../stdout. */
#include <stdint.h>
#include <stdio.h>
#include <string.h>

typedef uint32_t u32;
typedef int32_t i32;
typedef uint64_t u64;
typedef int64_t i64;

static u32 seed;

static u32 drawn(void) {
    seed ^= seed << 13;
    seed ^= seed >> 17;
    seed ^= seed << 5;
    return seed;
}

static const u32 CORNERS[] = {0, 1, 2, 31, 32, 33, 0x7fffffff, 0x80000000, 0x80000001, 0xffffffff, 0xfffffffe, 0x55555555, 0x0000ff80, 0xffff8000};

static u32 value(int turn) {
    return turn % 3 == 2 ? drawn() : CORNERS[drawn() % (sizeof CORNERS / sizeof CORNERS[0])];
}

/* one row: registers are told by number and value, the others hold 0x01010101 times their number */
struct row {
    u32 word, pc, rs1, a, rs2, b, at;
    u64 before;
    i64 held;
    u32 rd, result, next;
    const char *flow;
    char touch[40];
    const char *branch;
    u64 after;
    i64 left;
};

static int wants_answers;

static u32 filler(u32 number) { return 0x01010101u * number; }

/* an address or a value behind a word, where there is one */
static void option(const char *name, i64 n) {
    if (n >= 0) printf(" %s=0x%x", name, (u32)n);
}

/* what the registers are before, and after but for the pc */
static u32 before(const struct row *r, u32 k) { return k == r->rs2 ? r->b : k == r->rs1 ? r->a : filler(k); }

static u32 after(const struct row *r, u32 k) { return k == r->rd ? r->result : before(r, k); }

static void ask(const char *name, const struct row *r) {
    printf("step 0x%08x pc=0x%x x%u=0x%x x%u=0x%x 0x%x=0x%llx", r->word, r->pc, r->rs1, r->a, r->rs2, r->b, r->at, (unsigned long long)r->before);
    option("held", r->held);
    printf(" ; %s\n", name);
}

static void answer(const struct row *r) {
    printf("%s 0x%x to 0x%x, sp 0x%x%s%s:", r->flow, r->pc, r->next, after(r, 2), r->touch, r->branch);
    if (r->next != r->pc) printf(" pc=0x%x", r->next);
    for (u32 k = 0; k < 32; k++)
        if (after(r, k) != before(r, k)) printf(" x%u=0x%x", k, after(r, k));
    printf(" mem=0x%llx", (unsigned long long)r->after);
    option("held", r->left);
    printf("\n");
}

static void print(const char *name, const struct row *r) {
    if (wants_answers)
        answer(r);
    else
        ask(name, r);
}

static u32 register_type(u32 funct7, u32 rs2, u32 rs1, u32 funct3, u32 rd, u32 opcode) {
    return funct7 << 25 | rs2 << 20 | rs1 << 15 | funct3 << 12 | rd << 7 | opcode;
}

static u32 immediate_type(i32 imm, u32 rs1, u32 funct3, u32 rd, u32 opcode) {
    return (u32)imm << 20 | rs1 << 15 | funct3 << 12 | rd << 7 | opcode;
}

static u32 store_type(i32 imm, u32 rs2, u32 rs1, u32 funct3) {
    u32 n = (u32)imm;
    return (n >> 5 & 127) << 25 | rs2 << 20 | rs1 << 15 | funct3 << 12 | (n & 31) << 7 | 0x23;
}

static u32 branch_type(i32 imm, u32 rs2, u32 rs1, u32 funct3) {
    u32 n = (u32)imm;
    return (n >> 12 & 1) << 31 | (n >> 5 & 63) << 25 | rs2 << 20 | rs1 << 15 | funct3 << 12 | (n >> 1 & 15) << 8 | (n >> 11 & 1) << 7 | 0x63;
}

static u32 jump_type(i32 imm, u32 rd) {
    u32 n = (u32)imm;
    return (n >> 20 & 1) << 31 | (n >> 1 & 1023) << 21 | (n >> 11 & 1) << 20 | (n >> 12 & 255) << 12 | rd << 7 | 0x6f;
}

/* registers: rd, rs1 and rs2 differ, coincide, or are x0 */
static struct row start(int turn) {
    static const u32 PLACES[][3] = {{12, 10, 11}, {10, 10, 11}, {11, 10, 11}, {7, 7, 7}, {0, 10, 11}, {31, 0, 30}, {1, 5, 0}, {2, 2, 3}, {5, 1, 31}, {30, 31, 29}};
    const u32 *p = PLACES[turn % 10];
    struct row r = {0};
    r.rd = p[0];
    r.rs1 = p[1];
    r.rs2 = p[2];
    r.a = r.rs1 ? value(turn) : 0;
    r.b = r.rs2 == r.rs1 ? r.a : r.rs2 ? value(turn + 1) : 0;
    r.pc = turn % 4 == 3 ? 0xfffff000 + (drawn() & 0xffc) : 0x10000 + (drawn() & 0x1ffc);
    r.at = 0x20000;
    r.before = r.after = 0x8877665544332211ull;
    r.held = r.left = -1;
    r.next = r.pc + 4;
    r.flow = "Plain";
    r.branch = "";
    return r;
}

/* what rd holds afterwards: x0 stays 0 */
static void finish(const char *name, struct row r, u32 result) {
    r.result = r.rd ? result : 0;
    print(name, &r);
}

/* an instruction that leaves its rd field for something else writes no register */
static void finish_without(const char *name, struct row r) {
    r.rd = 0;
    r.result = 0;
    print(name, &r);
}

static u32 high(__int128 product) { return (u32)(product >> 32); }

static u32 computed(const char *n, u32 a, u32 b) {
    i32 s = (i32)a, t = (i32)b;
    if (!strcmp(n, "ADD")) return a + b;
    if (!strcmp(n, "SUB")) return a - b;
    if (!strcmp(n, "SLL")) return a << (b & 31);
    if (!strcmp(n, "SLT")) return s < t;
    if (!strcmp(n, "SLTU")) return a < b;
    if (!strcmp(n, "XOR")) return a ^ b;
    if (!strcmp(n, "SRL")) return a >> (b & 31);
    if (!strcmp(n, "SRA")) return (u32)(s >> (b & 31));
    if (!strcmp(n, "OR")) return a | b;
    if (!strcmp(n, "AND")) return a & b;
    if (!strcmp(n, "MUL")) return a * b;
    if (!strcmp(n, "MULH")) return high((__int128)s * t);
    if (!strcmp(n, "MULHSU")) return high((__int128)s * b);
    if (!strcmp(n, "MULHU")) return high((__int128)a * b);
    if (!strcmp(n, "DIV")) return b == 0 ? 0xffffffff : s == INT32_MIN && t == -1 ? a : (u32)(s / t);
    if (!strcmp(n, "DIVU")) return b == 0 ? 0xffffffff : a / b;
    if (!strcmp(n, "REM")) return b == 0 ? a : s == INT32_MIN && t == -1 ? 0 : (u32)(s % t);
    return b == 0 ? a : a % b;
}

static void arithmetic(void) {
    static const struct { const char *name; u32 funct3, funct7; } REGISTERS[] = {
        {"ADD", 0, 0}, {"SUB", 0, 32}, {"SLL", 1, 0}, {"SLT", 2, 0}, {"SLTU", 3, 0}, {"XOR", 4, 0}, {"SRL", 5, 0}, {"SRA", 5, 32}, {"OR", 6, 0}, {"AND", 7, 0},
        {"MUL", 0, 1}, {"MULH", 1, 1}, {"MULHSU", 2, 1}, {"MULHU", 3, 1}, {"DIV", 4, 1}, {"DIVU", 5, 1}, {"REM", 6, 1}, {"REMU", 7, 1}};
    static const struct { const char *name, *as; u32 funct3; } IMMEDIATES[] = {{"ADDI", "ADD", 0}, {"SLTI", "SLT", 2}, {"SLTIU", "SLTU", 3}, {"XORI", "XOR", 4}, {"ORI", "OR", 6}, {"ANDI", "AND", 7}};
    static const struct { const char *name, *as; u32 funct3, funct7; } SHIFTS[] = {{"SLLI", "SLL", 1, 0}, {"SRLI", "SRL", 5, 0}, {"SRAI", "SRA", 5, 32}};
    static const i32 IMMS[] = {0, 1, -1, 2047, -2048, 1024};
    for (int o = 0; o < 18; o++)
        for (int turn = 0; turn < 11; turn++) {
            struct row r = start(turn);
            if (turn == 10) r.a = 0x80000000, r.b = 0xffffffff;
            r.word = register_type(REGISTERS[o].funct7, r.rs2, r.rs1, REGISTERS[o].funct3, r.rd, 0x33);
            finish(REGISTERS[o].name, r, computed(REGISTERS[o].name, r.a, r.b));
        }
    for (int o = 0; o < 6; o++)
        for (int turn = 0; turn < 10; turn++) {
            struct row r = start(turn);
            i32 imm = turn < 6 ? IMMS[turn] : (i32)(drawn() & 4095) - 2048;
            r.word = immediate_type(imm, r.rs1, IMMEDIATES[o].funct3, r.rd, 0x13);
            finish(IMMEDIATES[o].name, r, computed(IMMEDIATES[o].as, r.a, (u32)imm));
        }
    for (int o = 0; o < 3; o++)
        for (int turn = 0; turn < 10; turn++) {
            struct row r = start(turn);
            u32 amount = turn == 0 ? 0 : turn == 1 ? 31 : drawn() & 31;
            r.word = register_type(SHIFTS[o].funct7, amount, r.rs1, SHIFTS[o].funct3, r.rd, 0x13);
            finish(SHIFTS[o].name, r, computed(SHIFTS[o].as, r.a, amount));
        }
    for (int turn = 0; turn < 20; turn++) {
        struct row r = start(turn % 10);
        u32 upper = turn % 10 == 0 ? 0 : turn % 10 == 1 ? 0xfffff000 : drawn() & 0xfffff000;
        r.word = upper | r.rd << 7 | (turn < 10 ? 0x37 : 0x17);
        finish(turn < 10 ? "LUI" : "AUIPC", r, turn < 10 ? upper : r.pc + upper);
    }
    for (int turn = 0; turn < 10; turn++) {
        struct row r = start(turn);
        r.word = (drawn() & 0xffff8f80) | 0x0f;
        finish_without("FENCE", r);
    }
}

static int link_register(u32 k) { return k == 1 || k == 5; }

static void jumps(void) {
    static const struct { const char *name; u32 funct3; } BRANCHES[] = {{"BEQ", 0}, {"BNE", 1}, {"BLT", 4}, {"BGE", 5}, {"BLTU", 6}, {"BGEU", 7}};
    for (int turn = 0; turn < 12; turn++) {
        struct row r = start(turn % 10);
        i32 imm = turn == 0 ? 1048572 : turn == 1 ? -1048576 : ((i32)(drawn() & 0x1ffffc) - 1048576);
        if (turn >= 10) r.rd = turn == 10 ? 1 : 6;
        r.word = jump_type(imm, r.rd);
        r.flow = link_register(r.rd) ? "Call" : "Jump";
        u32 link = r.pc + 4;
        r.next = r.pc + (u32)imm;
        finish("JAL", r, link);
    }
    for (int turn = 0; turn < 16; turn++) {
        static const u32 PAIRS[][2] = {{1, 10}, {5, 10}, {0, 1}, {0, 5}, {1, 1}, {5, 5}, {1, 5}, {5, 1}, {10, 10}, {6, 1}, {0, 10}, {2, 2}, {1, 2}, {31, 30}, {1, 31}, {7, 5}};
        struct row r = start(turn % 10);
        r.rd = PAIRS[turn][0];
        r.rs1 = PAIRS[turn][1];
        r.rs2 = 9;
        r.b = filler(9);
        i32 imm = turn == 0 ? 2047 : turn == 1 ? -2048 : (i32)(drawn() & 4095) - 2048;
        /* bit 0 of the target is dropped, whatever it is */
        r.a = (drawn() & 0xfffffffc) - (u32)imm + (u32)(turn % 2);
        r.word = immediate_type(imm, r.rs1, 0, r.rd, 0x67);
        r.flow = !link_register(r.rd) ? "Jump" : link_register(r.rs1) && r.rd != r.rs1 ? "Swap" : "Call";
        r.branch = ", indirect";
        r.next = (r.a + (u32)imm) & 0xfffffffe;
        finish("JALR", r, r.pc + 4);
    }
    for (int o = 0; o < 6; o++)
        for (int turn = 0; turn < 12; turn++) {
            struct row r = start(turn % 10);
            if (turn == 10 || (turn < 2 && (o == 0 || o == 3 || o == 5))) r.b = r.a;
            i32 imm = turn == 0 ? 4092 : turn == 1 ? -4096 : ((i32)(drawn() & 0x1ffc) - 4096);
            const char *n = BRANCHES[o].name;
            i32 s = (i32)r.a, t = (i32)r.b;
            int taken = !strcmp(n, "BEQ") ? r.a == r.b : !strcmp(n, "BNE") ? r.a != r.b : !strcmp(n, "BLT") ? s < t : !strcmp(n, "BGE") ? s >= t : !strcmp(n, "BLTU") ? r.a < r.b : r.a >= r.b;
            /* an offset that is no multiple of 4 matters only where the branch is taken */
            if (!taken && turn % 2) imm = 4094;
            r.word = branch_type(imm, r.rs2, r.rs1, BRANCHES[o].funct3);
            r.branch = taken ? ", taken" : ", not taken";
            if (taken) r.next = r.pc + (u32)imm;
            finish_without(n, r);
        }
}

/* places in two pages that lie side by side, one of them over the border */
static u32 place(int turn) { return turn % 3 == 0 ? 0x20ffc + (drawn() & 3) : 0x20000 + (drawn() & 0xff8) + (drawn() & 3); }

static void accesses(void) {
    static const struct { const char *name; u32 funct3, len; } LOADS[] = {{"LB", 0, 1}, {"LH", 1, 2}, {"LW", 2, 4}, {"LBU", 4, 1}, {"LHU", 5, 2}};
    static const struct { const char *name; u32 funct3, len; } STORES[] = {{"SB", 0, 1}, {"SH", 1, 2}, {"SW", 2, 4}};
    for (int o = 0; o < 8; o++)
        for (int turn = 0; turn < 11; turn++) {
            struct row r = start(turn % 10);
            int store = o >= 5;
            u32 len = store ? STORES[o - 5].len : LOADS[o].len;
            const char *name = store ? STORES[o - 5].name : LOADS[o].name;
            i32 imm = turn == 0 ? 2047 : turn == 1 ? -2048 : (i32)(drawn() & 4095) - 2048;
            u32 offset = drawn() & 3;
            r.at = place(turn);
            if (!r.rs1) r.rs1 = 29;
            r.a = r.at + offset - (u32)imm;
            if (r.rs2 == r.rs1) r.b = r.a;
            r.before = (u64)drawn() << 32 | drawn();
            unsigned char bytes[8];
            memcpy(bytes, &r.before, 8);
            u32 result = 0;
            if (store)
                memcpy(bytes + offset, &r.b, len);
            else if (len == 1)
                result = LOADS[o].funct3 == 0 ? (u32)(i32)(signed char)bytes[offset] : bytes[offset];
            else if (len == 2) {
                short half;
                memcpy(&half, bytes + offset, 2);
                result = LOADS[o].funct3 == 1 ? (u32)(i32)half : (u32)(unsigned short)half;
            } else
                memcpy(&result, bytes + offset, 4);
            memcpy(&r.after, bytes, 8);
            r.held = r.left = turn % 2 ? (i64)(r.at + offset) : -1;
            snprintf(r.touch, sizeof r.touch, ", %s %u at 0x%x", store ? "writes" : "reads", len, r.at + offset);
            r.word = store ? store_type(imm, r.rs2, r.rs1, STORES[o - 5].funct3) : immediate_type(imm, r.rs1, LOADS[o].funct3, r.rd, 0x03);
            if (store)
                finish_without(name, r);
            else
                finish(name, r, result);
        }
}

static u32 swapped(const char *n, u32 old, u32 b) {
    if (!strcmp(n, "AMOSWAP")) return b;
    if (!strcmp(n, "AMOADD")) return old + b;
    if (!strcmp(n, "AMOXOR")) return old ^ b;
    if (!strcmp(n, "AMOAND")) return old & b;
    if (!strcmp(n, "AMOOR")) return old | b;
    if (!strcmp(n, "AMOMIN")) return (i32)old < (i32)b ? old : b;
    if (!strcmp(n, "AMOMAX")) return (i32)old > (i32)b ? old : b;
    if (!strcmp(n, "AMOMINU")) return old < b ? old : b;
    return old > b ? old : b;
}

static void atomics(void) {
    static const struct { const char *name; u32 funct5; } ATOMICS[] = {{"LR", 2}, {"SC", 3}, {"AMOSWAP", 1}, {"AMOADD", 0}, {"AMOXOR", 4}, {"AMOAND", 12}, {"AMOOR", 8}, {"AMOMIN", 16}, {"AMOMAX", 20}, {"AMOMINU", 24}, {"AMOMAXU", 28}};
    for (int o = 0; o < 11; o++)
        for (int turn = 0; turn < 12; turn++) {
            struct row r = start(turn % 10);
            const char *name = ATOMICS[o].name;
            int lr = o == 0, sc = o == 1;
            r.at = 0x20000 + (drawn() & 0x1ff8);
            u32 low = drawn() & 1;
            if (!r.rs1) r.rs1 = 29;
            r.a = r.at + low * 4;
            u32 rs2 = lr ? 0 : r.rs2;
            if (lr) r.rs2 = 28, r.b = filler(28);
            if (r.rs2 == r.rs1) r.b = r.a;
            u32 word = value(turn), other = drawn();
            r.before = low ? (u64)word << 32 | other : (u64)other << 32 | word;
            r.after = r.before;
            r.held = turn % 3 == 0 ? -1 : turn % 3 == 1 ? (i64)r.a : (i64)(r.a ^ 4);
            r.left = lr ? (i64)r.a : sc ? -1 : r.held;
            int done = sc && r.held == (i64)r.a;
            u32 put = lr ? word : sc ? (done ? r.b : word) : swapped(name, word, r.b);
            r.after = low ? (u64)put << 32 | other : (u64)other << 32 | put;
            if (done)
                snprintf(r.touch, sizeof r.touch, ", writes 4 at 0x%x", r.a);
            else if (!sc)
                snprintf(r.touch, sizeof r.touch, ", reads 4 at 0x%x", r.a);
            r.word = register_type(ATOMICS[o].funct5 << 2 | (drawn() & 3), rs2, r.rs1, 2, r.rd, 0x2f);
            finish(name, r, sc ? !done : word);
        }
}

static void group(const char *title, void (*rows)(void)) {
    printf("# %s.\n", title);
    seed = 20240229;
    rows();
}

int main(int count, char **words) {
    wants_answers = count > 1 && !strcmp(words[1], "answers");
    group("Arithmetic, and FENCE", arithmetic);
    group("Jumps and branches", jumps);
    group("Loads and stores", accesses);
    group("Atomics", atomics);
    return 0;
}
