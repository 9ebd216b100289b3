/* A TFTP client to time servers on this host with: it waits for each answer, with blocks of 512 bytes and no options, and
   prints the seconds from the start to the last answer and the blocks of one transfer.

       serve PORT get NAME COUNT OUT     COUNT gets at once, each in a process of its own; OUT gets what the first one got
       serve PORT put FILE NAME          a put
       serve PORT beside NAME COUNT OUT  a get while the clients of COUNT other gets do not answer */
#include <arpa/inet.h>
#include <stdio.h>
#include <stdlib.h>
#include <string.h>
#include <sys/mman.h>
#include <sys/socket.h>
#include <sys/time.h>
#include <sys/wait.h>
#include <time.h>
#include <unistd.h>

#define BLOCK 512
#define GREATEST (BLOCK * 65535ul)
#define TRIES 5
#define MANY 64

static struct sockaddr_in server;

struct got {
    unsigned char *bytes;
    size_t length;
    unsigned blocks;
};

static void fail(const char *why)
{
    fprintf(stderr, "serve: %s\n", why);
    exit(1);
}

static double now(void)
{
    struct timespec t;
    clock_gettime(CLOCK_MONOTONIC, &t);
    return t.tv_sec + t.tv_nsec / 1e9;
}

static int opened(void)
{
    struct sockaddr_in own = {.sin_family = AF_INET, .sin_addr.s_addr = htonl(INADDR_LOOPBACK)};
    struct timeval second = {.tv_sec = 1};
    int end = socket(AF_INET, SOCK_DGRAM, 0);
    if (end < 0 || bind(end, (struct sockaddr *)&own, sizeof own) < 0)
        fail("no socket");
    setsockopt(end, SOL_SOCKET, SO_RCVTIMEO, &second, sizeof second);
    return end;
}

static size_t request(unsigned char *out, int opcode, const char *name)
{
    size_t length = strlen(name) + 1;
    if (length > 400)
        fail("a long name");
    out[0] = 0;
    out[1] = opcode;
    memcpy(out + 2, name, length);
    memcpy(out + 2 + length, "octet", 6);
    return length + 8;
}

/* Sends a request until an answer arrives, and returns that. The socket is then connected to the port that it came from. */
static size_t asked(int end, const unsigned char *out, size_t n, unsigned char *in)
{
    struct sockaddr_in from;
    for (int k = 0; k < TRIES; k++) {
        socklen_t size = sizeof from;
        ssize_t m;
        sendto(end, out, n, 0, (struct sockaddr *)&server, sizeof server);
        m = recvfrom(end, in, BLOCK + 5, 0, (struct sockaddr *)&from, &size);
        if (m < 4)
            continue;
        if (in[1] == 5)
            fail((char *)in + 4);
        if (connect(end, (struct sockaddr *)&from, sizeof from) < 0)
            fail("not connected");
        return m;
    }
    fail("no answer");
    return 0;
}

/* Sends a datagram until an answer arrives, and returns that. */
static size_t answered(int end, const unsigned char *out, size_t n, unsigned char *in)
{
    for (int k = 0; k < TRIES; k++) {
        ssize_t m;
        send(end, out, n, 0);
        m = recv(end, in, BLOCK + 5, 0);
        if (m < 4)
            continue;
        if (in[1] == 5)
            fail((char *)in + 4);
        return m;
    }
    fail("no answer");
    return 0;
}

static struct got get(int end, const char *name)
{
    unsigned char out[BLOCK + 5], in[BLOCK + 5];
    struct got got = {malloc(GREATEST), 0, 0};
    size_t n = asked(end, out, request(out, 1, name), in);
    if (!got.bytes)
        fail("no memory");
    for (;;) {
        unsigned block = in[2] << 8 | in[3];
        memcpy(out, "\0\4", 2);
        memcpy(out + 2, in + 2, 2);
        if (in[1] == 3 && block == got.blocks + 1) {
            memcpy(got.bytes + got.length, in + 4, n - 4);
            got.length += n - 4;
            got.blocks++;
            if (n < BLOCK + 4) {
                send(end, out, 4, 0);
                return got;
            }
            if (got.blocks == 65535)
                fail("too long");
        }
        n = answered(end, out, 4, in);
    }
}

static unsigned put(int end, const unsigned char *file, size_t length, const char *name)
{
    unsigned char out[BLOCK + 5], in[BLOCK + 5];
    unsigned last = length / BLOCK + 1, block;
    asked(end, out, request(out, 2, name), in);
    for (block = 1; block <= last; block++) {
        size_t at = BLOCK * (size_t)(block - 1), size = length - at < BLOCK ? length - at : BLOCK;
        memcpy(out, "\0\3", 2);
        out[2] = block >> 8;
        out[3] = block;
        memcpy(out + 4, file + at, size);
        do
            answered(end, out, size + 4, in);
        while (in[1] != 4 || (unsigned)(in[2] << 8 | in[3]) != block);
    }
    return last;
}

static void write_file(const char *path, struct got got)
{
    FILE *out = fopen(path, "wb");
    if (!out || fwrite(got.bytes, 1, got.length, out) != got.length || fclose(out) != 0)
        fail("not written");
}

/* This many gets at once, which begin as the parent closes a pipe, and note when they end. */
static void gets_at_once(const char *name, int count, const char *path)
{
    double *ends = mmap(0, MANY * sizeof *ends, PROT_READ | PROT_WRITE, MAP_SHARED | MAP_ANONYMOUS, -1, 0);
    unsigned *blocks = mmap(0, sizeof *blocks, PROT_READ | PROT_WRITE, MAP_SHARED | MAP_ANONYMOUS, -1, 0);
    int gate[2], status;
    double start, end = 0;
    if (ends == MAP_FAILED || blocks == MAP_FAILED || count < 1 || count > MANY || pipe(gate) < 0)
        fail("not ready");
    for (int k = 0; k < count; k++) {
        pid_t child = fork();
        if (child < 0)
            fail("no process");
        if (child == 0) {
            int socket = opened();
            struct got got;
            char byte;
            close(gate[1]);
            if (read(gate[0], &byte, 1) != 0)
                fail("no start");
            got = get(socket, name);
            ends[k] = now();
            if (k == 0) {
                *blocks = got.blocks;
                write_file(path, got);
            }
            exit(0);
        }
    }
    /* Time for the children to reach their read. */
    usleep(50000);
    start = now();
    close(gate[1]);
    for (int k = 0; k < count; k++)
        if (wait(&status) < 0 || status != 0)
            fail("a get failed");
    for (int k = 0; k < count; k++)
        end = ends[k] > end ? ends[k] : end;
    printf("%f %u\n", end - start, *blocks);
}

static void one_put(const char *path, const char *name)
{
    unsigned char *file = malloc(GREATEST);
    FILE *in = fopen(path, "rb");
    size_t length;
    double start;
    unsigned blocks;
    int end = opened();
    if (!file || !in)
        fail("not read");
    length = fread(file, 1, GREATEST, in);
    if (length >= GREATEST)
        fail("too long");
    start = now();
    blocks = put(end, file, length, name);
    printf("%f %u\n", now() - start, blocks);
}

/* A get beside others, each of which has had its first block and answers nothing. They are closed at the end. */
static void get_beside(const char *name, int count, const char *path)
{
    unsigned char out[BLOCK + 5], in[BLOCK + 5];
    int ends[MANY], end = opened();
    double start;
    struct got got;
    if (count < 0 || count > MANY)
        fail("too many");
    for (int k = 0; k < count; k++) {
        ends[k] = opened();
        asked(ends[k], out, request(out, 1, name), in);
    }
    start = now();
    got = get(end, name);
    printf("%f %u\n", now() - start, got.blocks);
    for (int k = 0; k < count; k++)
        send(ends[k], "\0\5\0\0done", 9, 0);
    write_file(path, got);
}

int main(int count, char **words)
{
    if (count < 5)
        fail("usage: serve PORT get NAME COUNT OUT | put FILE NAME | beside NAME COUNT OUT");
    server.sin_family = AF_INET;
    server.sin_addr.s_addr = htonl(INADDR_LOOPBACK);
    server.sin_port = htons(atoi(words[1]));
    if (strcmp(words[2], "put") == 0)
        one_put(words[3], words[4]);
    else if (count == 6 && strcmp(words[2], "get") == 0)
        gets_at_once(words[3], atoi(words[4]), words[5]);
    else if (count == 6 && strcmp(words[2], "beside") == 0)
        get_beside(words[3], atoi(words[4]), words[5]);
    else
        fail("unknown arguments");
    return 0;
}
