/* A plain C program to time `tws best` against: it reads each file whole, sorts the solutions of all by qsort, and writes the
   first of each level number and password. It does not check moves. */
#include "common.h"

struct solution {
    uint32_t number, ticks, size;
    const uint8_t *body;
};

static struct solution *all;
static size_t count, room;

static const uint8_t *read_file(const char *name, size_t *size)
{
    FILE *file = fopen(name, "rb");
    uint8_t *bytes;
    if (!file || fseek(file, 0, SEEK_END) != 0)
        die("read fault");
    *size = ftell(file);
    rewind(file);
    bytes = malloc(*size + 1);
    if (!bytes || fread(bytes, 1, *size, file) != *size)
        die("read fault");
    fclose(file);
    return bytes;
}

static void keep(const uint8_t *body, uint32_t size)
{
    if (count == room) {
        room = room ? room * 2 : 1024;
        all = realloc(all, room * sizeof *all);
        if (!all)
            die("out of memory");
    }
    all[count++] = (struct solution){number(body, 2), number(body + 12, 4), size, body};
}

static void take(const char *name)
{
    size_t size;
    const uint8_t *bytes = read_file(name, &size);
    if (size < 8 || memcmp(bytes, "\x35\x33\x9B\x99", 4) != 0)
        die("no solution file");
    for (size_t at = 8 + (size_t)bytes[7]; at < size;) {
        uint32_t n;
        if (size - at < 4 || (n = number(bytes + at, 4)) > size - at - 4)
            die("no solution file");
        if (n >= 16)
            keep(bytes + at + 4, n);
        at += 4 + (size_t)n;
    }
}

static int key_order(const struct solution *a, const struct solution *b)
{
    if (a->number != b->number)
        return a->number < b->number ? -1 : 1;
    return memcmp(a->body + 2, b->body + 2, 4);
}

static int order(const void *x, const void *y)
{
    const struct solution *a = x, *b = y;
    int key = key_order(a, b);
    if (key)
        return key;
    if (a->ticks != b->ticks)
        return a->ticks < b->ticks ? -1 : 1;
    if (a->size != b->size)
        return a->size < b->size ? -1 : 1;
    return memcmp(a->body, b->body, a->size);
}

int main(int argc, char **argv)
{
    for (int i = 1; i < argc; i++)
        take(argv[i]);
    qsort(all, count, sizeof *all, order);
    fwrite("\x35\x33\x9B\x99\x01\0\0\0", 1, 8, stdout);
    for (size_t i = 0; i < count; i++) {
        uint8_t size[4] = {all[i].size, all[i].size >> 8, all[i].size >> 16, all[i].size >> 24};
        if (i > 0 && key_order(&all[i - 1], &all[i]) == 0)
            continue;
        fwrite(size, 1, 4, stdout);
        fwrite(all[i].body, 1, all[i].size, stdout);
    }
    return 0;
}
