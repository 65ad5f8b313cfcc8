/* Makes the calls that stand on standard input and writes what came of each on standard output; tests/calls.rs compares that with
 * the Rust crate. All numbers are in the machine's form.
 *
 * A call: the function's number, the code or the layer, x, y, d; then six buffers, each as the bytes of an element (1 or 4), the number of elements
 * and the elements. What came of it: the answer; what the header's functions read in it (refused, number, place, value, overlays); the
 * bytes of stack written to; the six buffers' elements.
 *
 * A buffer without elements is passed as NULL, one of bytes at an odd address. */
#define _XOPEN_SOURCE 700
#include <pthread.h>
#include <stdio.h>
#include <stdlib.h>
#include <string.h>

#include "loxurfa.h"

enum { BUFFERS = 6, STACK = LOXURFA_STACK_BYTES, PAINT = 0xa5 };

struct buffer {
    uint32_t size, count;
    unsigned char *memory, *data;
};

struct call {
    uint32_t function, code;
    int32_t x, y, d;
    struct buffer buffers[BUFFERS];
    uint64_t answer;
    uint32_t depth;
};

static unsigned char *stack;

static void fail(const char *what)
{
    fprintf(stderr, "calls: %s\n", what);
    exit(1);
}

static int read_all(void *into, size_t bytes)
{
    return fread(into, 1, bytes, stdin) == bytes;
}

static void write_all(const void *from, size_t bytes)
{
    if (bytes > 0 && fwrite(from, 1, bytes, stdout) != bytes)
        fail("standard output");
}

static uint8_t *bytes(struct call *c, int i) { return c->buffers[i].data; }
static int32_t *words(struct call *c, int i) { return (int32_t *)(void *)c->buffers[i].data; }
static uint32_t *numbers(struct call *c, int i) { return (uint32_t *)(void *)c->buffers[i].data; }
static size_t count(struct call *c, int i) { return c->buffers[i].count; }

static uint64_t perform(struct call *c)
{
    switch (c->function) {
    case 0:
        return loxurfa_fracture(c->code, bytes(c, 0), count(c, 0), words(c, 1), count(c, 1), words(c, 2), count(c, 2));
    case 1:
        return loxurfa_fracture_first_edition(c->code, bytes(c, 0), count(c, 0), words(c, 1), count(c, 1), words(c, 2),
                                              count(c, 2));
    case 2:
        return loxurfa_combine(c->code, words(c, 0), count(c, 0), words(c, 1), count(c, 1), words(c, 2), count(c, 2),
                               words(c, 3), count(c, 3));
    case 3:
        return loxurfa_deoverlap(words(c, 0), count(c, 0), words(c, 1), count(c, 1), words(c, 2), count(c, 2));
    case 4:
        return loxurfa_equal(words(c, 0), count(c, 0), words(c, 1), count(c, 1), words(c, 2), count(c, 2), words(c, 3),
                             count(c, 3));
    case 5:
        return loxurfa_contains(c->x, c->y, c->d, words(c, 0), count(c, 0), words(c, 1), count(c, 1), c->code);
    case 6:
        return loxurfa_components(words(c, 0), count(c, 0), numbers(c, 1), count(c, 1));
    case 7:
        return loxurfa_transistors(words(c, 0), count(c, 0), words(c, 1), count(c, 1), words(c, 2), count(c, 2), numbers(c, 3),
                                   count(c, 3), words(c, 4), count(c, 4), words(c, 5), count(c, 5));
    case 8:
        return loxurfa_read_layers(bytes(c, 0), count(c, 0), words(c, 1), count(c, 1));
    case 9:
        return loxurfa_write_layers(words(c, 0), count(c, 0), bytes(c, 1), count(c, 1));
    }
    fail("no such function");
    return 0;
}

/* In a thread on the painted stack. */
static void *run(void *argument)
{
    unsigned char here = 0;
    struct call *c = (struct call *)argument;
    const unsigned char *low = stack;
    c->answer = perform(c);
    while (*low == PAINT)
        low++;
    c->depth = low < &here ? (uint32_t)(&here - low) : 0;
    return NULL;
}

int main(void)
{
    struct call c;
    void *memory;
    pthread_attr_t attributes;
    if (posix_memalign(&memory, 4096, STACK) != 0)
        fail("no memory");
    stack = (unsigned char *)memory;
    if (pthread_attr_init(&attributes) != 0 || pthread_attr_setstack(&attributes, stack, STACK) != 0)
        fail("no stack");

    while (read_all(&c.function, sizeof c.function)) {
        pthread_t thread;
        uint32_t parts[5];
        int i;
        if (!read_all(&c.code, 4) || !read_all(&c.x, 4) || !read_all(&c.y, 4) || !read_all(&c.d, 4))
            fail("a call is cut short");
        for (i = 0; i < BUFFERS; i++) {
            struct buffer *b = &c.buffers[i];
            size_t size;
            if (!read_all(&b->size, 4) || !read_all(&b->count, 4))
                fail("a call is cut short");
            size = (size_t)b->size * b->count;
            b->memory = (unsigned char *)malloc(size + 1);
            if (b->memory == NULL)
                fail("no memory");
            b->data = size == 0 ? NULL : b->size == 1 ? b->memory + 1 : b->memory;
            if (size > 0 && !read_all(b->data, size))
                fail("a call is cut short");
        }
        memset(stack, PAINT, STACK);
        if (pthread_create(&thread, &attributes, run, &c) != 0 || pthread_join(thread, NULL) != 0)
            fail("no thread");
        parts[0] = (uint32_t)loxurfa_refused(c.answer);
        parts[1] = loxurfa_number(c.answer);
        parts[2] = loxurfa_place(c.answer);
        parts[3] = loxurfa_value(c.answer);
        parts[4] = loxurfa_overlays(c.answer);
        write_all(&c.answer, sizeof c.answer);
        write_all(parts, sizeof parts);
        write_all(&c.depth, sizeof c.depth);
        for (i = 0; i < BUFFERS; i++) {
            write_all(c.buffers[i].data, (size_t)c.buffers[i].size * c.buffers[i].count);
            free(c.buffers[i].memory);
        }
    }
    if (fflush(stdout) != 0)
        fail("standard output");
    return 0;
}
