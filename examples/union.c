/* The union of the two layers of examples/two.layers, printed as a listing. From the repository's root:
 *
 *     cc -Iinclude examples/union.c crates/loxurfa_c/out/libloxurfa_c.a -o union && ./union < examples/two.layers
 */
#include <stdio.h>

#include "loxurfa.h"

enum { WIDTH = LOXURFA_TRAPEZOID_WORDS, LISTED = LOXURFA_FILE_TRAPEZOID_WORDS, ROOM = LOXURFA_MAX_LAYER_WORDS };

/* a byte more than a file may have, so that a longer one is refused */
static uint8_t file[LOXURFA_MAX_FILE_BYTES + 1];
static int32_t words[LOXURFA_MAX_LAYER_FILE_WORDS], out[ROOM], scratch[ROOM];

static int refused(uint64_t answer)
{
    if (!loxurfa_refused(answer))
        return 0;
    printf("refused %u place %u\n", (unsigned)loxurfa_number(answer), (unsigned)loxurfa_place(answer));
    return 1;
}

int main(void)
{
    size_t bytes = fread(file, 1, sizeof file, stdin);
    if (ferror(stdin)) {
        perror("standard input");
        return 2;
    }
    if (refused(loxurfa_read_layers(file, bytes, words, LOXURFA_MAX_LAYER_FILE_WORDS)))
        return 1;
    if (words[0] != 2)
        return 2;

    /* the number of layers, offset and length of each, then the trapezoids */
    const int32_t *a = words + 5, *b = a + WIDTH * words[2];
    size_t a_words = WIDTH * (size_t)words[2], b_words = WIDTH * (size_t)words[4];
    uint64_t answer = loxurfa_combine(LOXURFA_UNION, a, a_words, b, b_words, out, ROOM, scratch, ROOM);
    if (refused(answer))
        return 1;

    unsigned pieces = loxurfa_value(answer);
    printf("pieces %u\n", pieces);
    /* of each trapezoid the lines, without its set */
    for (unsigned i = 0; i < pieces; i++)
        for (unsigned j = 0; j < LISTED; j++)
            printf("%d%c", (int)out[WIDTH * i + j], j == LISTED - 1 ? '\n' : ' ');
    if (fflush(stdout) != 0 || ferror(stdout)) {
        perror("standard output");
        return 2;
    }
    return 0;
}
