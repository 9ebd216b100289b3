/* A plain C program to time `tws show` and `tws pack` against. It reads standard input into one block, checks its moves and
   prints each record by stdio, with the argument --moves each move too; with the argument pack it writes the file back with
   the moves of each solution in the shortest layouts. Of readable files its output is that of `tws`. */
#include "common.h"
#include <ctype.h>

static uint8_t *read_all(size_t *size)
{
    size_t room = 1 << 16, have = 0, got;
    uint8_t *bytes = malloc(room);
    if (!bytes)
        die("out of memory");
    while ((got = fread(bytes + have, 1, room - have, stdin)) > 0) {
        have += got;
        if (have == room) {
            room *= 2;
            bytes = realloc(bytes, room);
            if (!bytes)
                die("out of memory");
        }
    }
    *size = have;
    return bytes;
}

static void print_key(const uint8_t *body)
{
    const uint8_t *p = body + 2;
    printf("level %u ", number(body, 2));
    if (isalpha(p[0]) && isalpha(p[1]) && isalpha(p[2]) && isalpha(p[3]))
        printf("%.4s", (const char *)p);
    else
        printf("x%02x%02x%02x%02x", p[0], p[1], p[2], p[3]);
}

/* The number of bytes in the piece of moves that begins with this byte. */
static size_t piece_length(uint8_t first)
{
    switch (first & 3) {
    case 0:
    case 1:
        return 1;
    case 2:
        return 2;
    default:
        return first & 16 ? 2 + (first >> 2 & 3) : 4;
    }
}

static void check_moves(const uint8_t *moves, size_t size)
{
    size_t at = 0;
    while (at < size)
        at += piece_length(moves[at]);
    if (at != size)
        die("no solution file");
}

static unsigned long long print_move(unsigned long long tick, const char *kind, unsigned value)
{
    printf(" at %llu %s %u\n", tick, kind, value);
    return tick + 1;
}

static void print_moves(const uint8_t *moves, size_t size)
{
    unsigned long long next = 0;
    for (size_t at = 0; at < size;) {
        uint8_t first = moves[at];
        size_t length = piece_length(first);
        uint64_t n = 0;
        for (size_t i = length; i > 0; i--)
            n = n << 8 | moves[at + i - 1];
        if ((first & 3) == 0)
            for (int i = 2; i < 8; i += 2)
                next = print_move(next + 3, "step", n >> i & 3);
        else if ((first & 3) < 3)
            next = print_move(next + (n >> 5), "step", n >> 2 & 7);
        else if (first & 16)
            next = print_move(next + (n >> 14), "code", n >> 5 & 511);
        else
            next = print_move(next + (n >> 5), "step", n >> 2 & 3);
        at += length;
    }
}

static void print_record(const uint8_t *body, uint32_t size, int moves)
{
    static const uint8_t set[6];
    if (size == 0) {
        puts("pad");
    } else if (memcmp(body, set, 6) == 0) {
        printf("set %u\n", size - 6);
    } else {
        print_key(body);
        if (size > 6)
            printf(" ticks %u flags %02x start %02x seed %u bytes %u", number(body + 12, 4), body[6], body[7],
                   number(body + 8, 4), size - 16);
        putchar('\n');
        if (size > 6) {
            check_moves(body + 16, size - 16);
            if (moves)
                print_moves(body + 16, size - 16);
        }
    }
}

/* Bytes that are packed, and up to two steps 0 to 3 of three ticks that are kept back: one byte holds three. */
struct packed {
    uint8_t *bytes;
    size_t size;
    unsigned kept[2];
    int count;
};

static void put_number(struct packed *out, uint64_t n, int length)
{
    for (int i = 0; i < length; i++, n >>= 8)
        out->bytes[out->size++] = n;
}

static void put_kept(struct packed *out)
{
    for (int i = 0; i < out->count; i++)
        out->bytes[out->size++] = 0x61 | out->kept[i] << 2;
    out->count = 0;
}

static void put_step(struct packed *out, uint64_t ticks, unsigned direction)
{
    if (ticks == 3 && direction < 4) {
        if (out->count < 2) {
            out->kept[out->count++] = direction;
            return;
        }
        out->bytes[out->size++] = out->kept[0] << 2 | out->kept[1] << 4 | direction << 6;
        out->count = 0;
        return;
    }
    put_kept(out);
    if (ticks < 1 << 3)
        put_number(out, 1 | direction << 2 | ticks << 5, 1);
    else if (ticks < 1 << 11)
        put_number(out, 2 | direction << 2 | ticks << 5, 2);
    else
        put_number(out, 3 | direction << 2 | ticks << 5, 4);
}

static void put_code(struct packed *out, uint64_t ticks, unsigned code)
{
    int more = ticks < 1 << 2 ? 0 : ticks < 1 << 10 ? 1 : ticks < 1 << 18 ? 2 : 3;
    put_kept(out);
    put_number(out, 19 | more << 2 | (uint64_t)code << 5 | ticks << 14, 2 + more);
}

static void pack_moves(struct packed *out, const uint8_t *moves, size_t size)
{
    for (size_t at = 0; at < size;) {
        uint8_t first = moves[at];
        size_t length = piece_length(first);
        uint64_t n = 0;
        if (length > size - at)
            die("no solution file");
        for (size_t i = length; i > 0; i--)
            n = n << 8 | moves[at + i - 1];
        if ((first & 3) == 0)
            for (int i = 2; i < 8; i += 2)
                put_step(out, 3, n >> i & 3);
        else if ((first & 3) < 3)
            put_step(out, n >> 5, n >> 2 & 7);
        else if (first & 16)
            put_code(out, n >> 14, n >> 5 & 511);
        else
            put_step(out, n >> 5, n >> 2 & 3);
        at += length;
    }
    put_kept(out);
}

/* Adds a record with its size field. */
static void pack_record(struct packed *out, const uint8_t *body, uint32_t size)
{
    static const uint8_t set[6];
    size_t at = out->size, fixed = size < 16 || memcmp(body, set, 6) == 0 ? size : 16;
    memcpy(out->bytes + at + 4, body, fixed);
    out->size += 4 + fixed;
    pack_moves(out, body + fixed, size - fixed);
    size = out->size - at - 4;
    for (int i = 0; i < 4; i++)
        out->bytes[at + i] = size >> 8 * i;
}

int main(int argc, char **argv)
{
    int moves = argc > 1 && strcmp(argv[1], "--moves") == 0;
    int pack = argc > 1 && strcmp(argv[1], "pack") == 0;
    size_t size, at;
    unsigned long records = 0;
    uint8_t *bytes = read_all(&size);
    struct packed out = { pack ? malloc(size) : NULL, 0, { 0 }, 0 };
    if (pack && size > 0 && !out.bytes)
        die("out of memory");
    if (size < 8 || memcmp(bytes, "\x35\x33\x9B\x99", 4) != 0 || bytes[4] < 1 || bytes[4] > 2
        || size < 8 + (size_t)bytes[7])
        die("no solution file");
    if (!pack)
        printf("ruleset %s word %02x%02x extra %u\n", bytes[4] == 1 ? "lynx" : "ms", bytes[5], bytes[6], bytes[7]);
    else
        memcpy(out.bytes, bytes, out.size = 8 + (size_t)bytes[7]);
    for (at = 8 + (size_t)bytes[7]; at < size; records++) {
        uint32_t n;
        if (size - at < 4)
            die("no solution file");
        n = number(bytes + at, 4);
        if ((n > 0 && n < 6) || (n > 6 && n < 16) || n > size - at - 4)
            die("no solution file");
        if (pack)
            pack_record(&out, bytes + at + 4, n);
        else
            print_record(bytes + at + 4, n, moves);
        at += 4 + (size_t)n;
    }
    if (!pack)
        printf("records %lu\n", records);
    else if (fwrite(out.bytes, 1, out.size, stdout) != out.size)
        die("write fault");
    free(out.bytes);
    free(bytes);
    return 0;
}
