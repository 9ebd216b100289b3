/* What the C programs share that `tws` is timed against. */
#include <stdint.h>
#include <stdio.h>
#include <stdlib.h>
#include <string.h>

/* A little-endian number of this many bytes. */
static uint32_t number(const uint8_t *p, int bytes)
{
    uint32_t n = 0;
    for (int i = bytes - 1; i >= 0; i--)
        n = n << 8 | p[i];
    return n;
}

static void die(const char *why)
{
    fprintf(stderr, "benchmark: %s\n", why);
    exit(1);
}
