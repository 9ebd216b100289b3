/* The loop of `bench_table` in C, to time it against: a server's table in memory, with downloads of a collection and uploads
   of files in turn. The first byte of the input says how many transfers are live at a time, `1` or otherwise 64; the second
   how long the solutions of the files are, `l` for long ones, or otherwise about as long as those that players send; the
   third how many downloads and uploads there are, `+` for 320 of each, or otherwise 64. */
#include "common.h"
#include <strings.h>

#define FIRST 7000
#define LIVE 64
#define FILES 4
#define KEYS (FILES * 2000)
#define MAX_FILE 33553919

/* How many solutions a file has, and how many bytes of moves each. */
static int solutions = 2000, moves = 480;
static size_t file_size;

static void *need(void *p)
{
    if (!p)
        die("out of memory");
    return p;
}

/* ---- the collection */

struct body {
    uint8_t *bytes;
    size_t length;
};

static struct body kept[KEYS];
static int keys;

/* A text of the collection, which is freed once neither the table nor a download has it. */
struct text {
    uint8_t *bytes;
    size_t length;
    int users;
};

/* The text of the current collection, or none if that has changed since a text was made. */
static struct text *now;

static void leave(struct text *t)
{
    if (t && --t->users == 0) {
        free(t->bytes);
        free(t);
    }
}

static int is_better(const uint8_t *a, size_t m, const uint8_t *b, size_t n)
{
    uint32_t s = number(a + 12, 4), t = number(b + 12, 4);
    if (s != t)
        return s < t;
    if (m != n)
        return m < n;
    return memcmp(a, b, m) < 0;
}

/* Takes in a record, by its key. Returns whether anything changed. */
static int take(const uint8_t *body, size_t length)
{
    int i = 0, end = keys;
    while (i < end) {
        int middle = (i + end) / 2, j = (int)number(kept[middle].bytes, 2) - (int)number(body, 2);
        if (j < 0 || (j == 0 && memcmp(kept[middle].bytes + 2, body + 2, 4) < 0))
            i = middle + 1;
        else
            end = middle;
    }
    if (i < keys && memcmp(kept[i].bytes, body, 6) == 0) {
        if (!is_better(body, length, kept[i].bytes, kept[i].length))
            return 0;
        free(kept[i].bytes);
    } else {
        if (keys == KEYS)
            die("too many keys");
        memmove(kept + i + 1, kept + i, (keys - i) * sizeof *kept);
        keys++;
    }
    kept[i].bytes = memcpy(need(malloc(length)), body, length);
    kept[i].length = length;
    return 1;
}

/* Whether these moves end with a whole one. */
static int is_whole(const uint8_t *moves, size_t length)
{
    size_t at = 0;
    while (at < length) {
        unsigned b = moves[at];
        at += (b & 3) < 2 ? 1 : (b & 3) == 2 ? 2 : b & 16 ? 2 + (b >> 2 & 3) : 4;
    }
    return at == length;
}

/* Whether this is a file of solutions. */
static int is_file(const uint8_t *file, size_t length)
{
    size_t at = 8;
    if (length < 8 || memcmp(file, "\x35\x33\x9B\x99\x01", 5) != 0)
        return 0;
    while (at < length) {
        size_t size;
        if (at + 4 > length)
            return 0;
        size = number(file + at, 4);
        if (size < 16 || at + 4 + size > length || !is_whole(file + at + 20, size - 16))
            return 0;
        at += 4 + size;
    }
    return 1;
}

static void merge(const uint8_t *file, size_t length)
{
    int changed = 0;
    if (!is_file(file, length))
        return;
    for (size_t at = 8; at < length;) {
        size_t size = number(file + at, 4);
        changed |= take(file + at + 4, size);
        at += 4 + size;
    }
    if (changed) {
        leave(now);
        now = 0;
    }
}

static struct text *text(void)
{
    size_t at = 8;
    if (now)
        return now;
    now = need(calloc(1, sizeof *now));
    now->users = 1;
    now->length = 8;
    for (int i = 0; i < keys; i++)
        now->length += 4 + kept[i].length;
    now->bytes = need(malloc(now->length));
    memcpy(now->bytes, "\x35\x33\x9B\x99\x01\0\0\0", 8);
    for (int i = 0; i < keys; i++) {
        unsigned n = kept[i].length;
        uint8_t size[4] = {n, n >> 8, n >> 16, n >> 24};
        memcpy(now->bytes + at, size, 4);
        memcpy(now->bytes + at + 4, kept[i].bytes, n);
        at += 4 + n;
    }
    return now;
}

/* ---- the transfers */

struct transfer {
    int live, sends, whole, misses;
    uint32_t host;
    unsigned own, port;
    struct text *text;
    uint8_t *bytes;
    size_t length, room;
    unsigned current, count;
};

static struct transfer table[LIVE];

/* The transfer at one of our ports. */
static struct transfer *find(unsigned own)
{
    for (int i = 0; i < LIVE; i++)
        if (table[i].live && table[i].own == own)
            return &table[i];
    return 0;
}

static void closes(struct transfer *t)
{
    leave(t->text);
    free(t->bytes);
    t->live = 0;
}

static size_t packet(unsigned opcode, unsigned n, const void *body, size_t size, uint8_t *out)
{
    out[0] = 0;
    out[1] = opcode;
    out[2] = n >> 8;
    out[3] = n;
    memcpy(out + 4, body, size);
    return size + 4;
}

static size_t error(unsigned code, const char *why, uint8_t *out)
{
    return packet(5, code, why, strlen(why) + 1, out);
}

static size_t data(const uint8_t *file, size_t length, unsigned block, uint8_t *out)
{
    size_t at = 512ul * (block - 1), size = at < length ? length - at : 0;
    return packet(3, block, file + at, size < 512 ? size : 512, out);
}

/* Handles a request at the request port, while a spare port is free. */
static size_t on_request(unsigned own, uint32_t host, unsigned port, const uint8_t *in, size_t n, uint8_t *out)
{
    struct transfer *t = table;
    const uint8_t *mode = memchr(in + 2, 0, n - 2);
    int reads = in[1] == 1;
    if ((!reads && in[1] != 2) || !mode++ || !memchr(mode, 0, in + n - mode))
        return 0;
    if (strcasecmp((const char *)mode, "octet") != 0)
        return error(0, "octet only", out);
    if (reads && strcmp((const char *)in + 2, "lynx.tws") != 0)
        return error(1, "no such file", out);
    while (t < table + LIVE && t->live)
        t++;
    if (t == table + LIVE)
        return error(0, "server busy", out);
    if (reads && text()->length > MAX_FILE)
        return error(0, "collection too long", out);
    memset(t, 0, sizeof *t);
    t->live = 1;
    t->host = host;
    t->own = own;
    t->port = port;
    if (!reads)
        return packet(4, 0, "", 0, out);
    t->sends = 1;
    t->text = text();
    t->text->users++;
    t->current = 1;
    return data(t->text->bytes, t->text->length, 1, out);
}

static size_t on_ack(struct transfer *t, unsigned block, uint8_t *out)
{
    if (block != t->current)
        return 0;
    if (block == t->text->length / 512 + 1) {
        closes(t);
        return 0;
    }
    t->misses = 0;
    return data(t->text->bytes, t->text->length, ++t->current, out);
}

static size_t on_data(struct transfer *t, unsigned block, const uint8_t *body, size_t n, uint8_t *out)
{
    if (block != t->count + 1 || t->whole)
        return block == t->count && block ? packet(4, block, "", 0, out) : 0;
    if (block == 65535 && n == 512) {
        closes(t);
        return error(3, "file too long", out);
    }
    if (t->length + n > t->room) {
        t->room = t->room * 2 > t->length + n ? t->room * 2 : t->length + n;
        t->bytes = need(realloc(t->bytes, t->room));
    }
    memcpy(t->bytes + t->length, body, n);
    t->length += n;
    t->count = block;
    t->misses = 0;
    if (n < 512) {
        t->whole = 1;
        merge(t->bytes, t->length);
        free(t->bytes);
        t->bytes = 0;
    }
    return packet(4, block, "", 0, out);
}

static size_t on_datagram(unsigned own, uint32_t host, unsigned port, const uint8_t *in, size_t n, uint8_t *out)
{
    struct transfer *t = find(own);
    unsigned block;
    if (!t || n < 4 || n > 516 || in[0] != 0 || in[1] < 1 || in[1] > 5 || (in[1] == 4 && n != 4))
        return 0;
    if (t->host != host || t->port != port)
        return in[1] == 5 ? 0 : error(5, "unknown transfer", out);
    block = in[2] << 8 | in[3];
    if (in[1] == 5)
        closes(t);
    else if (in[1] == 4 && t->sends)
        return on_ack(t, block, out);
    else if (in[1] == 3 && !t->sends)
        return on_data(t, block, in + 4, n - 4, out);
    return 0;
}

/* ---- the clients */

struct client {
    unsigned port, upload;
    size_t size;
    uint8_t next[516];
};

/* Makes every tenth solution among these bytes of a file, which begin at an offset, better than the uploads before did. */
static void improve(uint8_t *bytes, size_t start, size_t length, unsigned upload)
{
    size_t size = 20 + moves, level = start <= 24 ? 0 : (start - 24 + size - 1) / size;
    for (; level < (size_t)solutions && 24 + level * size < start + length; level++)
        if (level % 10 == upload % 10)
            bytes[24 + level * size - start] = 100 - upload / 10;
}

static void reply(struct client *c, const uint8_t *file, const uint8_t *in, size_t n)
{
    unsigned block = in[2] << 8 | in[3];
    if (n >= 4 && in[1] == 3)
        c->size = packet(4, block, "", 0, c->next);
    else if (n >= 4 && in[1] == 4 && 512ul * block <= file_size) {
        c->size = data(file, file_size, block + 1, c->next);
        improve(c->next + 4, 512ul * block, c->size - 4, c->upload);
    } else
        c->size = 0;
}

static unsigned long rounds(const uint8_t *file, int live, int reads, unsigned upload)
{
    static struct client clients[LIVE];
    unsigned long sent = 0, turns;
    uint8_t out[516];
    for (int i = 0; i < live; i++) {
        struct client *c = &clients[i];
        int r = (i % 2 == 0) == reads;
        size_t n = r ? 17 : 19;
        const char *request = r ? "\0\1lynx.tws\0octet" : "\0\2upload.tws\0octet";
        c->port = FIRST + i;
        c->upload = upload + i / 2;
        n = on_request(c->port, 2, c->port, (const uint8_t *)request, n, out);
        reply(c, file, out, n);
    }
    do {
        turns = 0;
        for (int i = 0; i < live; i++) {
            struct client *c = &clients[i];
            if (!c->size)
                continue;
            reply(c, file, out, on_datagram(c->port, 2, c->port, c->next, c->size, out));
            turns++;
        }
        sent += turns;
    } while (turns);
    for (int i = 0; i < LIVE; i++)
        if (table[i].live)
            closes(&table[i]);
    return sent;
}

static void fill(uint8_t *file, int n)
{
    memcpy(file, "\x35\x33\x9B\x99\x01\0\0\0", 8);
    for (int level = 0; level < solutions; level++) {
        uint8_t *record = file + 8 + level * (20 + moves);
        unsigned size = 16 + moves;
        uint8_t head[20] = {size, size >> 8, size >> 16, size >> 24, level, level >> 8, n, 'B', 'C', 'D'};
        head[16] = 0x64;
        memcpy(record, head, 20);
        memset(record + 20, 0x61, moves);
    }
}

int main(void)
{
    uint8_t *file;
    unsigned long sent = 0, sum = 0;
    int one = getchar() == '1', live = one ? 1 : LIVE, times = one ? 128 : 2;
    if (getchar() == 'l') {
        solutions = 10;
        moves = 100000;
    }
    if (getchar() == '+')
        times *= 5;
    file_size = 8 + (size_t)solutions * (20 + moves);
    file = need(malloc(file_size));
    for (int n = FILES; n >= 1; n--) {
        fill(file, n);
        rounds(file, 1, 0, 0);
    }
    for (int i = 0; i < times; i++)
        sent += rounds(file, live, i % 2 == 0, 10 + (one ? i / 2 : i * (LIVE / 2)));
    for (size_t i = 0; i < text()->length; i++)
        sum += text()->bytes[i];
    printf("%lu datagrams, %zu bytes with the sum %lu\n", sent, text()->length, sum);
    return 0;
}
