/* The loop of `bench_ends` in C, to time it against: one sender and one receiver of a file of the greatest length, in memory,
   several times. */
#include <stdio.h>
#include <stdlib.h>
#include <string.h>

#define SIZE 33553919
#define TIMES 6

struct sender {
    const unsigned char *file;
    size_t length;
    unsigned current;
    int misses, finished;
};

struct receiver {
    unsigned char *bytes;
    size_t length, room;
    unsigned count;
    int misses, complete;
};

static size_t data(const struct sender *s, unsigned char *dgram)
{
    size_t at = 512ul * (s->current - 1), size = s->length - at;
    if (size > 512)
        size = 512;
    dgram[0] = 0;
    dgram[1] = 3;
    dgram[2] = s->current >> 8;
    dgram[3] = s->current;
    memcpy(dgram + 4, s->file + at, size);
    return size + 4;
}

static size_t on_ack(struct sender *s, unsigned block, unsigned char *dgram)
{
    if (s->finished || block != s->current)
        return 0;
    if (s->current == s->length / 512 + 1) {
        s->finished = 1;
        return 0;
    }
    s->current++;
    s->misses = 0;
    return data(s, dgram);
}

static size_t on_data(struct receiver *r, unsigned block, const unsigned char *body, size_t size, unsigned char *dgram)
{
    if (r->complete || block != r->count + 1 || (size == 512 && block == 65535))
        return 0;
    if (r->length + size > r->room) {
        r->room = r->room * 2 > r->length + size ? r->room * 2 : r->length + size;
        r->bytes = realloc(r->bytes, r->room);
        if (!r->bytes)
            exit(1);
    }
    memcpy(r->bytes + r->length, body, size);
    r->length += size;
    r->count = block;
    r->misses = 0;
    r->complete = size < 512;
    dgram[0] = 0;
    dgram[1] = 4;
    dgram[2] = block >> 8;
    dgram[3] = block;
    return 4;
}

static size_t transfer(const unsigned char *file)
{
    unsigned char out[516], back[516];
    struct sender s = {file, SIZE, 1, 0, 0};
    struct receiver r = {0};
    size_t n = data(&s, out);
    while (n >= 4 && n <= 516 && out[0] == 0 && out[1] == 3) {
        size_t m = on_data(&r, out[2] << 8 | out[3], out + 4, n - 4, back);
        if (m != 4 || back[0] != 0 || back[1] != 4)
            break;
        n = on_ack(&s, back[2] << 8 | back[3], out);
    }
    free(r.bytes);
    return r.length;
}

int main(void)
{
    unsigned char *file = malloc(SIZE);
    unsigned long total = 0;
    for (size_t i = 0; i < SIZE; i++)
        file[i] = i % 251;
    for (int k = 0; k < TIMES; k++) {
        unsigned char *copy = malloc(SIZE);
        memcpy(copy, file, SIZE);
        total += transfer(copy);
        free(copy);
    }
    free(file);
    printf("%lu bytes\n", total);
    return 0;
}
