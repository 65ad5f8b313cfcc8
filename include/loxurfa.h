/* Polygons fractured into trapezoids; set operations, deoverlapping, equality, the point question and connected components of
 * layers of trapezoids; transistors from three layers; layer files: exact for every input. docs/CALLS.md has the whole table of
 * refusals, their order and places, and the rule of space.
 *
 * LAYERS. A layer is signed 32-bit words and their number: LOXURFA_TRAPEZOID_WORDS words to a trapezoid, at most
 * LOXURFA_MAX_TRAPEZOIDS trapezoids. A trapezoid is the two lines of its left base, the two of its right base, its bottom and
 * its top, each line as x1 y1 x2 y2 with x1 < x2 and coordinates from -LOXURFA_PLATE_LIMIT to LOXURFA_PLATE_LIMIT; and then, as
 * its last word, the set of its source layers.
 *
 * SOURCES. Layers have numbers from 0 to LOXURFA_SOURCE_LAYERS - 1, and bit k of a set stands for layer k (bit 31 makes the word
 * negative). loxurfa_fracture takes a number and sets that bit. A trapezoid of a difference, or of a deoverlapped layer, keeps the set
 * of the one that it is a part of; a trapezoid of an intersection has the sets of both joined. A union is a, with its sets, and then
 * what remains of b, with the sets of b: inside a the bits of b are dropped. So a bit says where a trapezoid came from: all of its
 * points lie in a trapezoid that had this bit. The absence of a bit says nothing. Layer files have no sets. Any word is taken as a
 * set. No call is refused for one, and no point, number, count or place depends on one.
 *
 * OVERLAPS. Two trapezoids of one layer overlap if a point lies in both: a common edge or corner is no overlap, a trapezoid that stands
 * there twice is one. loxurfa_combine, loxurfa_equal, loxurfa_components and loxurfa_transistors refuse a layer that has overlaps with
 * LOXURFA_REFUSED_OVERLAP. loxurfa_deoverlap, loxurfa_contains, loxurfa_read_layers and loxurfa_write_layers take it. What
 * loxurfa_deoverlap and loxurfa_combine write has none.
 *
 * OUTPUTS. `out` takes trapezoids in the same form; past them its words are set to 0. `scratch` has as many words as `out`, and
 * all of them are 0 in the end. What either held before does not matter.
 *
 * MEMORY. What a call writes (`out`, `scratch`, `numbers`, `list`) overlaps nothing else that it is given: no other output, no layer,
 * not `file` and not `words`. Nothing checks that: reading a layer file in place, for one, destroys it and answers success. What is
 * only read may be the same memory. Words are aligned to 4 bytes, bytes to none. A pointer may be NULL where its length is 0, and
 * only there.
 *
 * CALLS AT ONCE. No call keeps anything, and none allocates: any number of threads may call, each with outputs of its own. A call
 * takes no more than LOXURFA_STACK_BYTES of stack.
 *
 * ANSWERS. Each call answers one number, which the functions loxurfa_refused to loxurfa_overlays take apart:
 *   bit 63 set    refused: the refusal's number in bits 32 to 39, its place in bits 0 to 31. With the numbers 1 to 11, 13
 *                 and 14 nothing has changed, with 12 (no space) the outputs, `list` and `scratch` are all 0.
 *   bit 63 clear  done: the call's value, as said at each, in bits 32 to 62, the number of overlays made in bits 0 to 31 (0 where
 *                 nothing is said).
 */
#ifndef LOXURFA_H
#define LOXURFA_H

#include <stddef.h>
#include <stdint.h>

#ifdef __cplusplus
extern "C" {
#endif

/* Limits. */
#define LOXURFA_TRAPEZOID_WORDS 25     /* words of a trapezoid in memory: six lines and a set */
#define LOXURFA_FILE_TRAPEZOID_WORDS 24 /* words of a trapezoid in a layer file, or in a line of the listing: six lines */
#define LOXURFA_MAX_TRAPEZOIDS 512     /* in a layer, an output, or all layers of a file */
#define LOXURFA_MAX_LAYER_WORDS 12800  /* of a layer, an output or a scratch area: 25 * 512 */
#define LOXURFA_SOURCE_LAYERS 32       /* layers that a set has bits for: 0 to 31 */
#define LOXURFA_PLATE_LIMIT 2048       /* coordinates are from minus this to this */
#define LOXURFA_MAX_DENOMINATOR 1024   /* of a point */
#define LOXURFA_MAX_POLYGONS 64        /* in a polygon file */
#define LOXURFA_MIN_VERTICES 3         /* of a polygon */
#define LOXURFA_MAX_VERTICES 32
#define LOXURFA_MAX_LAYERS 16          /* in a layer file */
#define LOXURFA_MAX_FILE_BYTES 65532   /* more are refused unread */
#define LOXURFA_MAX_LAYER_FILE_WORDS 12833 /* in memory, room for any layer file to be read: 1 + 2 * 16 + 25 * 512 */
#define LOXURFA_MAX_LAYER_FILE_BYTES 49284 /* room for any layer file to be written: 4 * (1 + 2 * 16 + 24 * 512) */
#define LOXURFA_TRIPLE_WORDS 3         /* words of a triple */
#define LOXURFA_STACK_BYTES 262144     /* more than any call takes */

/* Codes of set operations. */
#define LOXURFA_UNION 0
#define LOXURFA_INTERSECTION 1
#define LOXURFA_A_MINUS_B 2
#define LOXURFA_B_MINUS_A 3
#define LOXURFA_SYMMETRIC_DIFFERENCE 4

/* Numbers of refusals, by what is refused. */
#define LOXURFA_REFUSED_LENGTH 1 /* the length of a layer, an output, `scratch` or `numbers` */
#define LOXURFA_REFUSED_CODE 2
#define LOXURFA_REFUSED_POINT 3
#define LOXURFA_REFUSED_FILE 4   /* the number of a file's bytes */
#define LOXURFA_REFUSED_COUNT 5  /* the number of polygons or layers */
#define LOXURFA_REFUSED_PAIR 6   /* an offset or a length, or the file's end */
#define LOXURFA_REFUSED_GRID 7   /* a coordinate */
#define LOXURFA_REFUSED_LINE 8
#define LOXURFA_REFUSED_BASE 9
#define LOXURFA_REFUSED_BASES 10
#define LOXURFA_REFUSED_SIDES 11
#define LOXURFA_REFUSED_SPACE 12
#define LOXURFA_REFUSED_OVERLAP 13 /* two trapezoids of one layer; checked after 11 and before 12 */
#define LOXURFA_REFUSED_LAYER 14 /* the number of a source layer; checked after 2 and before 3 */

/* Values of loxurfa_equal. */
#define LOXURFA_SAME 0
#define LOXURFA_DIFFERS_IN_A 1 /* some points lie in a and not in b */
#define LOXURFA_DIFFERS_IN_B 2 /* none do, but some lie in b and not in a */

/* Whether an answer is a refusal; then its number and place, else the value and the overlays. */
static inline int loxurfa_refused(uint64_t answer) { return (int)(answer >> 63); }
static inline uint32_t loxurfa_number(uint64_t answer) { return (uint32_t)(answer >> 32 & 0xff); }
static inline uint32_t loxurfa_place(uint64_t answer) { return (uint32_t)(answer & 0xffffffff); }
static inline uint32_t loxurfa_value(uint64_t answer) { return (uint32_t)(answer >> 32 & 0x7fffffff); }
static inline uint32_t loxurfa_overlays(uint64_t answer) { return (uint32_t)(answer & 0xffffffff); }

/* Whether a layer is in a set, the last word of a trapezoid. */
static inline int loxurfa_has_source(int32_t sources, uint32_t layer)
{
    return layer < LOXURFA_SOURCE_LAYERS && ((uint32_t)sources >> layer & 1);
}

/* The trapezoids of the polygons of a polygon file (docs/FORMATS.md), one polygon after the other: the points with a winding number
 * other than 0. Those of two polygons may overlap. The file is of the new edition, in which a polygon's length may be left out; so
 * files of the first edition are taken too. The set of each trapezoid has this layer and no other; a layer that is not 0 to 31 is
 * refused with LOXURFA_REFUSED_LAYER. Value: the trapezoids written. */
uint64_t loxurfa_fracture(uint32_t layer, const uint8_t *file, size_t file_bytes, int32_t *out, size_t out_words,
                          int32_t *scratch, size_t scratch_words);

/* The same by the reader of the first edition, in which every length is there: a length 0 is refused with LOXURFA_REFUSED_PAIR. Of a
 * file with every length there both readers answer and write the same. */
uint64_t loxurfa_fracture_first_edition(uint32_t layer, const uint8_t *file, size_t file_bytes, int32_t *out,
                                        size_t out_words, int32_t *scratch, size_t scratch_words);

/* The set operation with this code on a and b, neither of which has overlaps. Value: the trapezoids written. Overlays: those made. */
uint64_t loxurfa_combine(uint32_t code, const int32_t *a, size_t a_words, const int32_t *b, size_t b_words,
                         int32_t *out, size_t out_words, int32_t *scratch, size_t scratch_words);

/* The trapezoids of a, which may have overlaps, without them. Value: the trapezoids written. Overlays: those made. */
uint64_t loxurfa_deoverlap(const int32_t *a, size_t a_words, int32_t *out, size_t out_words,
                           int32_t *scratch, size_t scratch_words);

/* Whether the same points lie in a and b, neither of which has overlaps. Value: LOXURFA_SAME or one of the two others. Overlays: those
 * made. `out` is room to work in, and all 0 in the end. */
uint64_t loxurfa_equal(const int32_t *a, size_t a_words, const int32_t *b, size_t b_words,
                       int32_t *out, size_t out_words, int32_t *scratch, size_t scratch_words);

/* Whether the point (x/d, y/d) lies in the result of the set operation with this code on a and b, which may have overlaps; d is from 1
 * to LOXURFA_MAX_DENOMINATOR, x and y from -LOXURFA_PLATE_LIMIT times d to LOXURFA_PLATE_LIMIT times d. Value: 1 yes, 0 no. */
uint64_t loxurfa_contains(int32_t x, int32_t y, int32_t d, const int32_t *a, size_t a_words,
                          const int32_t *b, size_t b_words, uint32_t code);

/* The connected components of a, which has no overlaps. Two trapezoids touch if their closed forms, edges and corners included,
 * share at least two different points: part of an edge is enough, one corner is not. Two are in one component if a chain of
 * trapezoids leads from the one to the other in which each touches the next. `numbers` has one entry for each trapezoid, and gets
 * the lowest number of a trapezoid of its component, counted from 0. Value: the number of components. */
uint64_t loxurfa_components(const int32_t *a, size_t a_words, uint32_t *numbers, size_t numbers_count);

/* The transistors of three layers, none of which has overlaps. The shapes of a layer are its connected components, as
 * loxurfa_components numbers them. A shape encloses another if every point of the other lies in it. `list` gets each triple of a
 * collector that encloses a base that encloses an emitter, once: LOXURFA_TRIPLE_WORDS words, the numbers of the collector, the base
 * and the emitter, each in its own layer, ascending by collector, then base, then emitter. `list` has any length; past the triples
 * it is set to 0. There are at most as many triples as shapes of the emitters' layer, so LOXURFA_TRIPLE_WORDS words for each of its
 * trapezoids are always enough. `out` is room to work in, and all 0 in the end. Value: the triples. Overlays: those made. */
uint64_t loxurfa_transistors(const int32_t *collectors, size_t collectors_words, const int32_t *bases, size_t bases_words,
                             const int32_t *emitters, size_t emitters_words, uint32_t *list, size_t list_words,
                             int32_t *out, size_t out_words, int32_t *scratch, size_t scratch_words);

/* The words of a layer file (docs/FORMATS.md): the number of layers, offset and length of each in trapezoids, then the trapezoids,
 * LOXURFA_TRAPEZOID_WORDS words each, with empty sets. Layers may have overlaps. `out` has any length; past the words it is set to 0.
 * Value: the trapezoids of all layers. */
uint64_t loxurfa_read_layers(const uint8_t *file, size_t file_bytes, int32_t *out, size_t out_words);

/* The layer file with these words, low byte first, without the sets. Layers may have overlaps. `out` has any length; past the file it
 * is set to 0. Value: the same. */
uint64_t loxurfa_write_layers(const int32_t *words, size_t words_count, uint8_t *out, size_t out_bytes);

/* The archive's own functions take no NULL. Under the names above C calls the functions below, which put a real address in the
 * place of a pointer with length 0. */
static inline uint64_t loxurfa_call_fracture(uint32_t layer, const uint8_t *file, size_t file_bytes, int32_t *out,
                                             size_t out_words, int32_t *scratch, size_t scratch_words)
{
    uint8_t byte = 0;
    int32_t word = 0;
    return loxurfa_fracture(layer, file_bytes ? file : &byte, file_bytes, out_words ? out : &word, out_words,
                            scratch_words ? scratch : &word, scratch_words);
}

static inline uint64_t loxurfa_call_fracture_first_edition(uint32_t layer, const uint8_t *file, size_t file_bytes,
                                                           int32_t *out, size_t out_words, int32_t *scratch,
                                                           size_t scratch_words)
{
    uint8_t byte = 0;
    int32_t word = 0;
    return loxurfa_fracture_first_edition(layer, file_bytes ? file : &byte, file_bytes, out_words ? out : &word, out_words,
                                          scratch_words ? scratch : &word, scratch_words);
}

static inline uint64_t loxurfa_call_combine(uint32_t code, const int32_t *a, size_t a_words, const int32_t *b, size_t b_words,
                                            int32_t *out, size_t out_words, int32_t *scratch, size_t scratch_words)
{
    int32_t word = 0;
    return loxurfa_combine(code, a_words ? a : &word, a_words, b_words ? b : &word, b_words,
                           out_words ? out : &word, out_words, scratch_words ? scratch : &word, scratch_words);
}

static inline uint64_t loxurfa_call_deoverlap(const int32_t *a, size_t a_words, int32_t *out, size_t out_words,
                                              int32_t *scratch, size_t scratch_words)
{
    int32_t word = 0;
    return loxurfa_deoverlap(a_words ? a : &word, a_words, out_words ? out : &word, out_words,
                             scratch_words ? scratch : &word, scratch_words);
}

static inline uint64_t loxurfa_call_equal(const int32_t *a, size_t a_words, const int32_t *b, size_t b_words,
                                          int32_t *out, size_t out_words, int32_t *scratch, size_t scratch_words)
{
    int32_t word = 0;
    return loxurfa_equal(a_words ? a : &word, a_words, b_words ? b : &word, b_words,
                         out_words ? out : &word, out_words, scratch_words ? scratch : &word, scratch_words);
}

static inline uint64_t loxurfa_call_contains(int32_t x, int32_t y, int32_t d, const int32_t *a, size_t a_words,
                                             const int32_t *b, size_t b_words, uint32_t code)
{
    int32_t word = 0;
    return loxurfa_contains(x, y, d, a_words ? a : &word, a_words, b_words ? b : &word, b_words, code);
}

static inline uint64_t loxurfa_call_components(const int32_t *a, size_t a_words, uint32_t *numbers, size_t numbers_count)
{
    int32_t word = 0;
    uint32_t number = 0;
    return loxurfa_components(a_words ? a : &word, a_words, numbers_count ? numbers : &number, numbers_count);
}

static inline uint64_t loxurfa_call_transistors(const int32_t *collectors, size_t collectors_words, const int32_t *bases,
                                                size_t bases_words, const int32_t *emitters, size_t emitters_words,
                                                uint32_t *list, size_t list_words, int32_t *out, size_t out_words,
                                                int32_t *scratch, size_t scratch_words)
{
    int32_t word = 0;
    uint32_t number = 0;
    return loxurfa_transistors(collectors_words ? collectors : &word, collectors_words, bases_words ? bases : &word, bases_words,
                               emitters_words ? emitters : &word, emitters_words, list_words ? list : &number, list_words,
                               out_words ? out : &word, out_words, scratch_words ? scratch : &word, scratch_words);
}

static inline uint64_t loxurfa_call_read_layers(const uint8_t *file, size_t file_bytes, int32_t *out, size_t out_words)
{
    uint8_t byte = 0;
    int32_t word = 0;
    return loxurfa_read_layers(file_bytes ? file : &byte, file_bytes, out_words ? out : &word, out_words);
}

static inline uint64_t loxurfa_call_write_layers(const int32_t *words, size_t words_count, uint8_t *out, size_t out_bytes)
{
    int32_t word = 0;
    uint8_t byte = 0;
    return loxurfa_write_layers(words_count ? words : &word, words_count, out_bytes ? out : &byte, out_bytes);
}

#define loxurfa_fracture loxurfa_call_fracture
#define loxurfa_fracture_first_edition loxurfa_call_fracture_first_edition
#define loxurfa_combine loxurfa_call_combine
#define loxurfa_deoverlap loxurfa_call_deoverlap
#define loxurfa_equal loxurfa_call_equal
#define loxurfa_contains loxurfa_call_contains
#define loxurfa_components loxurfa_call_components
#define loxurfa_transistors loxurfa_call_transistors
#define loxurfa_read_layers loxurfa_call_read_layers
#define loxurfa_write_layers loxurfa_call_write_layers

#ifdef __cplusplus
}
#endif

#endif
