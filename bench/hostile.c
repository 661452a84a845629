/* Makes files that are slow or large to read where a reader walks a text, a table or a name more than once:
   `hostile KIND BYTES FILE`. */
#include <stdint.h>
#include <stdio.h>
#include <stdlib.h>
#include <string.h>

static uint8_t *bytes; /* the file so far */
static size_t len, room;

static void put(const void *from, size_t n) {
    while (len + n > room)
        bytes = realloc(bytes, room = 2 * room + n + 4096);
    memcpy(bytes + len, from, n);
    len += n;
}

static void number(uint64_t value, size_t n) {
    for (size_t i = 0; i < n; i++) {
        uint8_t byte = value >> (8 * i);
        put(&byte, 1);
    }
}

static void text(const char *from) { put(from, strlen(from)); }

static void uleb(uint64_t value) {
    do {
        number((value & 127) | (value > 127 ? 128 : 0), 1);
        value >>= 7;
    } while (value);
}

static void sleb(uint64_t value) { /* not below 0 */
    for (; value > 63; value >>= 7)
        number((value & 127) | 128, 1);
    number(value, 1);
}

static void set(size_t place, uint64_t value, size_t n) {
    for (size_t i = 0; i < n; i++)
        bytes[place + i] = value >> (8 * i);
}

/* n letters in no order, so that tails of the text differ early */
static void letters(size_t n) {
    uint32_t state = 1;
    for (size_t i = 0; i < n; i++) {
        state = state * 1664525 + 1013904223;
        number('a' + (state >> 24) % 26, 1);
    }
}

enum { BASE = 0x10000, HEADER = 52, PROGRAM = 32, SECTION = 40, SYMBOL = 16 };
enum { NAMES, CODE, SYMBOLS, STRINGS, LINES, LINE_STR, SECTIONS };

static struct section { uint32_t name, type, flags, addr, offset, size, link; } sections[65000] = {
    [NAMES] = { 0, 3 },    [CODE] = { 0, 8, 4, BASE, HEADER + PROGRAM, 8 }, [SYMBOLS] = { 0, 2, 0, 0, 0, 0, STRINGS },
    [STRINGS] = { 0, 3 },  [LINES] = { 1, 1 },                              [LINE_STR] = { 13, 1 },
};
static uint32_t count = SECTIONS;

static void begin(int i) { sections[i].offset = len; }
static void end(int i) { sections[i].size = len - sections[i].offset; }

/* the file's header, with so many program headers behind it */
static void header(uint32_t segments) {
    static const uint8_t magic[16] = { 0x7f, 'E', 'L', 'F', 1, 1, 1 };
    put(magic, 16);
    number(2, 2), number(243, 2), number(1, 4), number(BASE, 4), number(HEADER, 4), number(0, 4), number(0, 4);
    number(HEADER, 2), number(PROGRAM, 2), number(segments, 2), number(SECTION, 2), number(0, 2), number(NAMES, 2);
}

static void segment(uint32_t offset, uint32_t addr, uint32_t in_file, uint32_t in_memory) {
    number(1, 4), number(offset, 4), number(addr, 4), number(addr, 4), number(in_file, 4), number(in_memory, 4);
    number(5, 4), number(4096, 4);
}

static void leave(void) { number(0x05d00893, 4), number(0x73, 4); } /* addi a7, x0, 93; ecall */

/* the headers of a program that exits, with room for so many bytes of code */
static void program(uint32_t code) {
    header(1), segment(HEADER + PROGRAM, BASE, 8, code), leave();
    sections[CODE].size = code;
}

static void finish(void) {
    begin(NAMES), text(""), number(0, 1), put(".debug_line", 12), put(".debug_line_str", 16), end(NAMES);
    set(32, len, 4), set(48, count, 2);
    for (uint32_t i = 0; i < count; i++) {
        struct section s = sections[i];
        number(s.name, 4), number(s.type, 4), number(s.flags, 4), number(s.addr, 4), number(s.offset, 4);
        number(s.size, 4), number(s.link, 4), number(0, 4), number(1, 4), number(0, 4);
    }
}

static void symbol(uint32_t name, uint32_t value, uint32_t size, uint32_t type, uint32_t section) {
    number(name, 4), number(value, 4), number(size, 4), number(16 + type, 1), number(0, 1), number(section, 2);
}

/* symbols of half the file, and their names: one long text, named from places that are so far apart */
static void symbols(size_t size, uint32_t type, uint32_t apart, uint32_t step) {
    uint32_t n = size / 2 / SYMBOL;
    program(4 * n + 8);
    begin(SYMBOLS);
    for (uint32_t i = 0; i < n; i++)
        symbol(1 + i * apart, BASE + i * step, 4, type, CODE);
    end(SYMBOLS);
    begin(STRINGS), number(0, 1), letters(size / 2), number(0, 1), end(STRINGS);
}

enum { APART = 256, SPACE = 0x3f000000 }; /* in bytes: how far apart things are, and what they take at most */

/* symbols of one name, each far from the one before */
static void symbols_apart(size_t size) {
    uint32_t n = size / SYMBOL < SPACE / APART ? size / SYMBOL : SPACE / APART;
    program(APART * n);
    begin(SYMBOLS);
    for (uint32_t i = 0; i < n; i++)
        symbol(1, BASE + APART * i, 4, 2, CODE);
    end(SYMBOLS);
    begin(STRINGS), number(0, 1), text("f"), number(0, 1), end(STRINGS);
}

/* symbols at one address, each with a name of its own */
static void one_address(size_t size) {
    uint32_t n = size / (SYMBOL + 9);
    program(4096);
    begin(SYMBOLS);
    for (uint32_t i = 0; i < n; i++)
        symbol(1 + 9 * i, BASE, 4, 2, CODE);
    end(SYMBOLS);
    begin(STRINGS), number(0, 1);
    for (uint32_t i = 0; i < n; i++) {
        char name[10];
        snprintf(name, 10, "%08x", i * 2654435761u);
        put(name, 9);
    }
    end(STRINGS);
}

/* symbols at one address, in no order, whose names are tails of one text of one letter */
static void one_letter(size_t size) {
    uint32_t n = size / 2 / SYMBOL;
    program(4096);
    begin(SYMBOLS);
    for (uint32_t i = 0; i < n; i++)
        symbol(1 + i * (uint64_t)7919 % n, BASE, 4, 2, CODE);
    end(SYMBOLS);
    begin(STRINGS), number(0, 1);
    for (size_t i = 0; i < size / 2; i++)
        number('a', 1);
    number(0, 1), end(STRINGS);
}

/* symbols at one address, in no order, whose names begin alike and differ far behind */
static void long_fronts(size_t size) {
    uint32_t room = 1016, n = size / (SYMBOL + room);
    program(4096);
    begin(SYMBOLS);
    for (uint32_t i = 0; i < n; i++)
        symbol(1 + room * i, BASE, 4, 2, CODE);
    end(SYMBOLS);
    begin(STRINGS), number(0, 1);
    for (uint32_t i = 0; i < n; i++) {
        char name[1017] = { 0 };
        memset(name, 'a', 1000);
        snprintf(name + 1000, 17, "%08x%.*s", i * 2654435761u, (int)(i % 7), "zzzzzz");
        put(name, room);
    }
    end(STRINGS);
}

/* symbols in thousands of sections, which lie over each other and whose names are one long text */
static void many_sections(size_t size) {
    uint32_t n = size / 2 / SYMBOL, many = size / 80 < 50000 ? size / 80 : 50000;
    program(4 * n + 8);
    begin(SYMBOLS);
    for (uint32_t i = 0; i < n; i++)
        symbol(1, BASE + 4 * i, 0, 0, SECTIONS + i % many);
    end(SYMBOLS);
    begin(STRINGS), number(0, 1), text("f"), number(0, 1), end(STRINGS);
    begin(NAMES), letters(size / 2), end(NAMES);
    for (count = SECTIONS; count < SECTIONS + many; count++)
        sections[count] = (struct section){ 0, 1, 4, BASE, HEADER + PROGRAM, 4 * n, 0 };
    struct section names = sections[NAMES];
    finish();
    sections[NAMES] = names;
    size_t header = len - SECTION * (size_t)count + SECTION * NAMES;
    set(header + 16, names.offset, 4), set(header + 20, names.size, 4);
}

/* segments in no order of addresses, as many as can be loaded, each with a page of its own and a part of the file */
static void many_segments(size_t size) {
    uint32_t n = size / 64 < 60000 ? size / 64 : 60000, each = size / n - PROGRAM;
    header(n);
    for (uint32_t i = 0; i < n; i++)
        segment(HEADER + PROGRAM * n + each * i, BASE + i * (uint64_t)7919 % n * 4096, each, 4096);
    for (uint32_t i = 0; i < n; i++)
        leave(), letters(each - 8);
}

/* a unit's length, header and tables, up to where the files' format begins; the program is put behind them */
static size_t unit;
static void unit_begin(void) {
    static const uint8_t counts[12] = { 0, 1, 1, 1, 1, 0, 0, 0, 1, 0, 0, 1 };
    unit = len;
    number(0, 4), number(5, 2), number(4, 1), number(0, 1), number(0, 4);
    number(1, 1), number(1, 1), number(1, 1), number(0xfb, 1), number(14, 1), number(13, 1), put(counts, 12);
}
static void tables_end(void) { set(unit + 8, len - unit - 12, 4); }
static void unit_end(void) { set(unit, len - unit - 4, 4); }
static void sequence_at(uint32_t addr) { number(0, 1), number(5, 1), number(2, 1), number(addr, 4); }
static void sequence_end(void) { number(0x010100, 3); }
static void one_directory(void) { number(1, 1), uleb(1), uleb(8), uleb(1), put("d", 2); }

/* files that point to one long text: by paths, or by a content that is dropped; rows name so many of them */
static void long_text(size_t size, uint32_t content, uint32_t apart, int named) {
    uint32_t n = size / 2 / (named ? 10 : 4);
    program(4096);
    begin(LINES), unit_begin(), one_directory();
    number(1, 1), uleb(content), uleb(0x1f), uleb(n);
    for (uint32_t i = 0; i < n; i++)
        number(i * apart, 4);
    tables_end(), sequence_at(BASE);
    for (uint32_t i = 0; named && i < n; i++)
        number(4, 1), uleb(i), number(13 + 14 + 5, 1);
    number(1, 1), number(2, 1), uleb(4), sequence_end(), unit_end(), end(LINES);
    begin(LINE_STR), letters(size / 2), number(0, 1), end(LINE_STR);
}

/* directories and files, as many of each, and rows that name each file */
static void many_files(size_t size) {
    uint32_t n = size / 26;
    char name[10];
    program(4096);
    begin(LINES), unit_begin(), number(1, 1), uleb(1), uleb(8), uleb(n);
    for (uint32_t i = 0; i < n; i++)
        snprintf(name, 10, "%x", i), put(name, strlen(name) + 1);
    number(2, 1), uleb(1), uleb(8), uleb(2), uleb(15), uleb(n);
    for (uint32_t i = 0; i < n; i++)
        snprintf(name, 10, "%x", i), put(name, strlen(name) + 1), uleb(i);
    tables_end(), sequence_at(BASE);
    for (uint32_t i = 0; i < n; i++)
        number(4, 1), uleb(i), number(13 + 14 + 5, 1);
    number(2, 1), uleb(4), sequence_end(), unit_end(), end(LINES);
}

/* units of four bytes */
static void units(size_t size) {
    program(4096), begin(LINES);
    for (size_t i = 0; i < size / 4; i++)
        number(0, 4);
    end(LINES);
}

/* sequences, each inside the one before */
static void nested(size_t size) {
    uint32_t n = size / 21; /* the most that a sequence takes */
    program(4096), begin(LINES), unit_begin(), one_directory(), number(0, 1), uleb(0), tables_end();
    for (uint32_t i = 0; i < n; i++) {
        sequence_at(BASE + n - i), number(3, 1), sleb(i), number(1, 1), number(2, 1), uleb(2 * i + 1), sequence_end();
    }
    unit_end(), end(LINES);
}

/* rows of one byte each */
static void rows(size_t size) {
    program(4096), begin(LINES), unit_begin(), one_directory(), number(0, 1), uleb(0), tables_end(), sequence_at(BASE);
    for (size_t i = 0; i < size; i++)
        number(13 + 14 + 6, 1); /* an address and a line further */
    sequence_end(), unit_end(), end(LINES);
}

/* rows of one byte each, each far from the one before; what the addresses have no room for is passed over */
static void rows_apart(size_t size) {
    size_t n = size < SPACE / APART ? size : SPACE / APART;
    program(4096), begin(LINES), unit_begin();
    bytes[unit + 12] = APART / 2; /* minimum_instruction_length */
    one_directory(), number(0, 1), uleb(0), tables_end(), sequence_at(BASE);
    for (size_t i = 0; i < n; i++)
        number(13 + 2 * 14 + 6, 1); /* two instructions and a line further */
    for (size_t i = n; i < size; i++)
        number(6, 1);
    sequence_end(), unit_end(), end(LINES);
}

/* so many lines of the first file, whose rows of one function begin to be looked for at one place in a table of up to
   18,432: what FoldHasher makes of a place, folded to 32 bits */
static void colliding(size_t count) {
    const uint64_t multiplier = 0x9e3779b97f4a7c15, state = (0x243f6a8885a308d3 + 16) ^ (1ull << 32);
    char out[16];
    for (uint32_t line = 1; count > 0; line++) {
        unsigned __int128 product = (unsigned __int128)state * (line ^ multiplier);
        uint64_t hash = (uint64_t)product ^ (uint64_t)(product >> 64);
        if (((hash ^ hash >> 32) & 2047) == 0) {
            snprintf(out, 16, "%u\n", line), put(out, strlen(out));
            count--;
        }
    }
}

/* profiles */
static void line(const char *form, size_t value) {
    char out[64];
    snprintf(out, 64, form, value);
    text(out);
}
static void ids(size_t size) {
    for (size_t i = 0; len < size; i++)
        line("fn=(%zu) f\n1 1\n", i);
}
static void one_name(size_t size) {
    for (size_t i = 0; len < size; i++)
        line("fl=(%zu) ", i), line("s%zu\nfn=(1) f\n1 1\n", i);
}
/* names of one kind that all hash to one number: the second eight bytes make FoldHasher forget what was before them */
static void one_hash(size_t size, const char *kind) {
    char name[9];
    for (size_t i = 0; len < size; i++) {
        snprintf(name, 9, "%08zx", i), text(kind), text(name), number(0x9e3779b97f4a7c15, 8);
        text("the same to the end\n"), text(*kind == 'o' ? "fn=f\n1 1\n" : "1 1\n");
    }
}
static void long_lines(size_t size) { text("fn=(1) "), letters(size - len), text("\n1 1\nfn=(1)\n2 1\n"); }
static void long_name(size_t size) {
    text("fn=(1) "), letters(size / 2), text("\n");
    while (len < size)
        text("fn=(1)\n+1 1\ncfn=(1)\ncalls=1 1\n* 1\n");
}
static void long_file(size_t size) { /* the names come in no order */
    text("fl=(1) "), letters(size / 2), text("\n");
    for (size_t i = 0; len < size; i++)
        line("fn=(%zu) ", i), line("f%zu\n1 1\n", (uint32_t)(i * 2654435761u));
}
static void fronts(size_t size) {
    size_t front = 64;
    while (front * front * 4 < size)
        front *= 2;
    for (size_t i = 0; len < size; i++)
        line("fn=(%zu) ", i), letters(front), line("%zu\n1 1\n", i);
}

int main(int argc, char **argv) {
    if (argc != 4)
        return 1;
    const char *kind = argv[1];
    size_t size = strtoull(argv[2], 0, 10);
    int profile = !strncmp(kind, "profile-", 8);
    if (profile)
        text("events: Ir\n");
    if (!strcmp(kind, "lines")) { colliding(size); goto made; }
    if (!strcmp(kind, "symbols-data")) symbols(size, 1, 0, 4);
    else if (!strcmp(kind, "symbols-code")) symbols(size, 2, 0, 4);
    else if (!strcmp(kind, "symbols-one-place")) symbols(size, 2, 0, 0);
    else if (!strcmp(kind, "symbols-apart")) symbols_apart(size);
    else if (!strcmp(kind, "symbols-tails")) symbols(size, 2, 1, 4);
    else if (!strcmp(kind, "symbols-one-address")) one_address(size);
    else if (!strcmp(kind, "symbols-one-letter")) one_letter(size);
    else if (!strcmp(kind, "symbols-fronts")) long_fronts(size);
    else if (!strcmp(kind, "sections")) { many_sections(size); goto made; }
    else if (!strcmp(kind, "segments")) many_segments(size);
    else if (!strcmp(kind, "lines-paths")) long_text(size, 1, 0, 0);
    else if (!strcmp(kind, "lines-dropped")) long_text(size, 3, 1, 0);
    else if (!strcmp(kind, "lines-named")) long_text(size, 1, 0, 1);
    else if (!strcmp(kind, "lines-files")) many_files(size);
    else if (!strcmp(kind, "lines-units")) units(size);
    else if (!strcmp(kind, "lines-nested")) nested(size);
    else if (!strcmp(kind, "lines-rows")) rows(size);
    else if (!strcmp(kind, "rows-apart")) rows_apart(size);
    else if (!strcmp(kind, "profile-ids")) ids(size);
    else if (!strcmp(kind, "profile-one-name")) one_name(size);
    else if (!strcmp(kind, "profile-hash-names")) one_hash(size, "fn=");
    else if (!strcmp(kind, "profile-hash-files")) one_hash(size, "fl=");
    else if (!strcmp(kind, "profile-hash-objects")) one_hash(size, "ob=");
    else if (!strcmp(kind, "profile-long-line")) long_lines(size);
    else if (!strcmp(kind, "profile-long-name")) long_name(size);
    else if (!strcmp(kind, "profile-long-file")) long_file(size);
    else if (!strcmp(kind, "profile-fronts")) fronts(size);
    else return 1;
    if (!profile)
        finish();
made:;
    FILE *file = fopen(argv[3], "wb");
    return !file || fwrite(bytes, 1, len, file) != len || fclose(file);
}
