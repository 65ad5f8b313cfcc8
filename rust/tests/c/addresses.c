/* The functions of the archive, in its place: each answers 1 if every pointer it got is an aligned address, NULL not among them, else 0.
 * tests/calls.rs links it with calls.c, to see what the header hands on. */
#include <stddef.h>
#include <stdint.h>

static int aligned(const void *pointer, size_t bytes) { return pointer != NULL && (uintptr_t)pointer % bytes == 0; }

#ifdef __cplusplus
extern "C" {
#endif

uint64_t loxurfa_fracture(uint32_t layer, const uint8_t *file, size_t n, int32_t *out, size_t o, int32_t *scratch, size_t s);
uint64_t loxurfa_fracture_first_edition(uint32_t layer, const uint8_t *file, size_t n, int32_t *out, size_t o, int32_t *scratch,
                                        size_t s);
uint64_t loxurfa_combine(uint32_t code, const int32_t *a, size_t n, const int32_t *b, size_t m, int32_t *out, size_t o,
                         int32_t *scratch, size_t s);
uint64_t loxurfa_deoverlap(const int32_t *a, size_t n, int32_t *out, size_t o, int32_t *scratch, size_t s);
uint64_t loxurfa_equal(const int32_t *a, size_t n, const int32_t *b, size_t m, int32_t *out, size_t o, int32_t *scratch,
                       size_t s);
uint64_t loxurfa_contains(int32_t x, int32_t y, int32_t d, const int32_t *a, size_t n, const int32_t *b, size_t m, uint32_t code);
uint64_t loxurfa_components(const int32_t *a, size_t n, uint32_t *numbers, size_t o);
uint64_t loxurfa_transistors(const int32_t *collectors, size_t n, const int32_t *bases, size_t m, const int32_t *emitters, size_t k,
                             uint32_t *list, size_t l, int32_t *out, size_t o, int32_t *scratch, size_t s);
uint64_t loxurfa_read_layers(const uint8_t *file, size_t n, int32_t *out, size_t o);
uint64_t loxurfa_write_layers(const int32_t *words, size_t n, uint8_t *out, size_t o);

uint64_t loxurfa_fracture(uint32_t layer, const uint8_t *file, size_t n, int32_t *out, size_t o, int32_t *scratch, size_t s)
{
    (void)layer, (void)n, (void)o, (void)s;
    return aligned(file, 1) && aligned(out, 4) && aligned(scratch, 4);
}

uint64_t loxurfa_fracture_first_edition(uint32_t layer, const uint8_t *file, size_t n, int32_t *out, size_t o, int32_t *scratch,
                                        size_t s)
{
    return loxurfa_fracture(layer, file, n, out, o, scratch, s);
}

uint64_t loxurfa_combine(uint32_t code, const int32_t *a, size_t n, const int32_t *b, size_t m, int32_t *out, size_t o,
                         int32_t *scratch, size_t s)
{
    (void)code, (void)n, (void)m, (void)o, (void)s;
    return aligned(a, 4) && aligned(b, 4) && aligned(out, 4) && aligned(scratch, 4);
}

uint64_t loxurfa_deoverlap(const int32_t *a, size_t n, int32_t *out, size_t o, int32_t *scratch, size_t s)
{
    (void)n, (void)o, (void)s;
    return aligned(a, 4) && aligned(out, 4) && aligned(scratch, 4);
}

uint64_t loxurfa_equal(const int32_t *a, size_t n, const int32_t *b, size_t m, int32_t *out, size_t o, int32_t *scratch,
                       size_t s)
{
    (void)n, (void)m, (void)o, (void)s;
    return aligned(a, 4) && aligned(b, 4) && aligned(out, 4) && aligned(scratch, 4);
}

uint64_t loxurfa_contains(int32_t x, int32_t y, int32_t d, const int32_t *a, size_t n, const int32_t *b, size_t m, uint32_t code)
{
    (void)x, (void)y, (void)d, (void)n, (void)m, (void)code;
    return aligned(a, 4) && aligned(b, 4);
}

uint64_t loxurfa_components(const int32_t *a, size_t n, uint32_t *numbers, size_t o)
{
    (void)n, (void)o;
    return aligned(a, 4) && aligned(numbers, 4);
}

uint64_t loxurfa_transistors(const int32_t *collectors, size_t n, const int32_t *bases, size_t m, const int32_t *emitters, size_t k,
                             uint32_t *list, size_t l, int32_t *out, size_t o, int32_t *scratch, size_t s)
{
    (void)n, (void)m, (void)k, (void)l, (void)o, (void)s;
    return aligned(collectors, 4) && aligned(bases, 4) && aligned(emitters, 4) && aligned(list, 4) && aligned(out, 4)
           && aligned(scratch, 4);
}

uint64_t loxurfa_read_layers(const uint8_t *file, size_t n, int32_t *out, size_t o)
{
    (void)n, (void)o;
    return aligned(file, 1) && aligned(out, 4);
}

uint64_t loxurfa_write_layers(const int32_t *words, size_t n, uint8_t *out, size_t o)
{
    (void)n, (void)o;
    return aligned(words, 4) && aligned(out, 1);
}

#ifdef __cplusplus
}
#endif
