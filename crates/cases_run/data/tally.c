/* Reads its input into two places at a time, counts its letters, sorts them by how often they came, and prints the most
   frequent ones on the output and a closing line on the errors, each by pairs. Without a C library; made as crowd is. */
enum { READV = 65, WRITEV = 66, EXIT_GROUP = 94, BRK = 214 };

struct pair {
    const char *bytes;
    int size;
};

struct entry {
    int letter, count;
};

static int call(int number, int a, int b, int c)
{
    register int a0 __asm__("a0") = a, a1 __asm__("a1") = b, a2 __asm__("a2") = c, a7 __asm__("a7") = number;
    __asm__ volatile("ecall" : "+r"(a0) : "r"(a1), "r"(a2), "r"(a7) : "memory");
    return a0;
}

__attribute__((noinline)) static int fill(char *text)
{
    char head[3];
    int size = 0, count;
    do {
        struct pair places[2] = {{head, 3}, {text + size + 3, 13}};
        count = call(READV, 0, (int)places, 2);
        for (int i = 0; i < 3 && i < count; i++)
            text[size + i] = head[i];
        size += count;
    } while (count > 0);
    return size;
}

__attribute__((noinline)) static void tally(struct entry *entries, const char *text, int size)
{
    for (int i = 0; i < 26; i++)
        entries[i].letter = 'a' + i;
    for (int i = 0; i < size; i++)
        if (text[i] >= 'a' && text[i] <= 'z')
            entries[text[i] - 'a'].count++;
}

__attribute__((noinline)) static int before(const struct entry *a, const struct entry *b)
{
    return a->count > b->count || (a->count == b->count && a->letter < b->letter);
}

static void swap(struct entry *a, struct entry *b)
{
    struct entry old = *a;
    *a = *b;
    *b = old;
}

__attribute__((noinline)) static void sort(struct entry *entries, int first, int last)
{
    int low = first;
    if (first >= last)
        return;
    swap(&entries[(first + last) / 2], &entries[last]);
    for (int i = first; i < last; i++)
        if (before(&entries[i], &entries[last]))
            swap(&entries[i], &entries[low++]);
    swap(&entries[low], &entries[last]);
    sort(entries, first, low - 1);
    sort(entries, low + 1, last);
}

__attribute__((noinline)) static void print(const struct entry *entry)
{
    char line[4] = {(char)entry->letter, ' ', (char)('0' + entry->count / 10), (char)('0' + entry->count % 10)};
    struct pair pairs[2] = {{line, 4}, {"\n", 1}};
    call(WRITEV, 1, (int)pairs, 2);
}

__attribute__((noinline, used)) static int work(int argc, char **argv)
{
    static struct entry entries[26];
    char *text = (char *)call(BRK, 0, 0, 0);
    call(BRK, (int)text + 4096, 0, 0);
    int size = fill(text);
    tally(entries, text, size);
    sort(entries, 0, 25);
    for (int i = 0; i < 5; i++)
        print(&entries[i]);
    struct pair pairs[3] = {{"of ", 3}, {argv[argc - 1], 5}, {"\n", 1}};
    call(WRITEV, 2, (int)pairs, 3);
    return call(EXIT_GROUP, size % 256, 0, 0);
}

__asm__(".globl _start\n_start:\n\t.option push\n\t.option norelax\n\tla gp,__global_pointer$\n\t.option pop\n\tlw a0,0(sp)\n\taddi a1,sp,4\n\tj work\n");
