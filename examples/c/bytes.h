/* Files and numbers, for the examples. */

#ifndef BYTES_H
#define BYTES_H

#include <stdint.h>
#include <stdio.h>
#include <stdlib.h>

/* Bytes on the heap; there is always room for one, so that the pointer of an empty list is valid too. */
struct bytes {
    uint8_t *at;
    size_t length;
};

static void fail(const char *what, const char *name)
{
    fprintf(stderr, "%s%s\n", what, name);
    exit(2);
}

static struct bytes room_for(size_t length)
{
    struct bytes b = {calloc(length + 1, 1), length};
    if (b.at == NULL)
        fail("no memory", "");
    return b;
}

static struct bytes contents(const char *name)
{
    FILE *file = fopen(name, "rb");
    if (file == NULL)
        fail("can't open ", name);
    struct bytes b = room_for(65536);
    size_t n = 0, more;
    while ((more = fread(b.at + n, 1, b.length - n, file)) > 0) {
        n += more;
        if (n == b.length) {
            b.length *= 2;
            b.at = realloc(b.at, b.length + 1);
            if (b.at == NULL)
                fail("no memory", "");
        }
    }
    if (ferror(file))
        fail("can't read ", name);
    fclose(file);
    b.length = n;
    return b;
}

/* The i-th number of 8 bytes. */
static uint64_t number(const struct bytes b, size_t i)
{
    uint64_t n = 0;
    for (int k = 7; k >= 0; k--)
        n = n << 8 | b.at[8 * i + (size_t)k];
    return n;
}

static void end_output(void)
{
    if (fflush(stdout) != 0 || ferror(stdout))
        fail("can't write", "");
}

#endif
