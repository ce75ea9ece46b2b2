/* The divisor index for Gröbner bases, proved in Rattle, for C and C++.
 *
 * Link libdivisor_index.a, on Linux for x86-64. It calls memcpy and memset of the
 * C library and nothing else.
 *
 * WORDS. Everything lent is 32-bit words, low byte first, in slices of bytes: a
 * pointer and a length in bytes. An array of uint32_t has these bytes on x86-64 and
 * can be lent by a cast to uint8_t *. The top 4 bits of a word are its kind, the
 * other 28 its payload:
 *
 *   kind 0  end of a monomial or ratio: its number of variables
 *   kind 1  variable of a monomial: id in bits 27-16, power 1 to 32,767 in bits 15-0
 *   kind 2  variable of a ratio: id in bits 27-16, power + 32,768 in bits 15-0;
 *           power -32,767 to 32,767, never 0
 *   kind 3  signature index
 *   kind 4  answer
 *   kind 5  refusal: its number
 *   kind 6  call number
 *
 * A monomial is its variables' words, ids falling and below the number of variables,
 * and an end word; a ratio likewise. x3^2 x0 is 10030002 10000001 00000002 (hex), one
 * is 00000000, the ratio x0^-1 is 20007fff 00000001. Maxima, masks and labels are
 * bare words, without a kind. docs/LAYOUT.md has more, and the words of an image.
 *
 * SLICES. Each pointer must be valid for its length, for writing too where it is not
 * const, and a slice that is written must not overlap another slice of the call.
 * Nothing else is asked of a caller: the bytes can be any, no alignment is needed,
 * slices that are only read may overlap, and a slice of length 0 may be a null
 * pointer.
 *
 * ANSWERS. Where nothing else is said, a function returns 0, and its answer stands at
 * the front of the written slice, the bytes behind it being as they were; or it
 * returns the number of a refusal, and then no byte is changed. Refusals are named at
 * each function in the order in which they are asked.
 *
 * STACK AND THREADS. divisor_index_check, divisor_index_run and divisor_index_list
 * need up to 976 KiB of stack, on the deepest tree that an image can have, and some 20
 * KiB on a balanced one; the others need less than 4 KiB (measured, for x86-64). There
 * is no global state, and nothing is allocated: threads may call at the same time, but
 * none may be lent a slice that another writes. */
#ifndef DIVISOR_INDEX_H
#define DIVISOR_INDEX_H

#include <stddef.h>
#include <stdint.h>

#ifdef __cplusplus
extern "C" {
#endif

/* The stack in bytes on which any call can be made, 1 MiB. */
#define DIVISOR_INDEX_STACK 1048576

/* The room in bytes for any one monomial or ratio: 64 variables and an end word. */
#define DIVISOR_INDEX_MONOMIAL_ROOM 260

/* The kinds of index. */
enum divisor_index_kind {
    DIVISOR_INDEX_OF_MONOMIALS = 0,
    DIVISOR_INDEX_OF_RATIOS = 1
};

/* Refusals. */
enum divisor_index_refusal {
    DIVISOR_INDEX_PARAMETERS = 1,      /* index kind, variables, capacity or maxima */
    DIVISOR_INDEX_BUFFER = 2,          /* the buffer to open in is too short */
    DIVISOR_INDEX_UNSOUND = 3,         /* the image is not sound */
    DIVISOR_INDEX_LIST = 4,            /* the list is not whole words from a call number on */
    DIVISOR_INDEX_ROOM = 5,            /* the answer does not fit */
    DIVISOR_INDEX_NOT_SERVED = 6,      /* this index does not serve the call */
    DIVISOR_INDEX_NOT_CANONICAL = 7,   /* the words are not canonical */
    DIVISOR_INDEX_FULL = 8,            /* the capacity is reached */
    DIVISOR_INDEX_POWER_TOO_LARGE = 9, /* a product's power is above 32,767 */
    DIVISOR_INDEX_NO_LABEL = 10        /* no label is free */
};

/* THE INDEX, in an image of the caller's: plain words, which can be stored and lent
 * again. variables are 1 to 64, capacity is 1 to 4,096 entries, and maxima are exactly
 * one bare word a variable, each 1 to 32,767: the powers that masks are made for. */

/* The length of an image in bytes, which is above 16 and at most 256 x (variables + 2)
 * x (capacity + 1); or 1, refused. Nothing is written. */
uint32_t divisor_index_length(uint32_t kind, uint32_t variables, uint32_t capacity,
                              const uint8_t *maxima, size_t maxima_len);

/* Writes the image of an index that holds nothing. Room: the length above; bytes past
 * it are not touched, here and below. Refusals: 1, 2. */
uint32_t divisor_index_open(uint32_t kind, uint32_t variables, uint32_t capacity,
                            const uint8_t *maxima, size_t maxima_len,
                            uint8_t *image, size_t image_len);

/* Whether the bytes begin with the image of a valid index: 0, or 3. Nothing is
 * written. */
uint32_t divisor_index_check(const uint8_t *image, size_t image_len);

/* Runs a list of calls on an image, which it changes, after it has judged the whole
 * image as divisor_index_check does. A call is a kind 6 word with its number, and its
 * body, the words up to the next kind 6 word; the list may be empty.
 *
 *   number  call                     body                           answer
 *   0       insert, of monomials     monomial                       the entry's number, from 0
 *   1       contained                monomial                       yes 1, no 0
 *   2       insert, of ratios        index, signature monomial, lm  the entry's number, from 0
 *   3       reducer                  index, ratio, lm               none 0, else number + 1, and
 *                                                                   2^27 more for a singular one
 *   4       high base divisor        index, ratio, lm               none 0, else number + 1
 *   5       low base divisor         index, signature monomial      none 0, else number + 1
 *   6       singular                 index, signature monomial, lm  yes 1, no 0
 *
 * answers gets one word a call, of kind 4, or of kind 5 for a refused call: 6 (not of
 * this index), 7 (another body), 8 (full). A refused call changes nothing and the list
 * goes on. Room: 4 bytes a call. Refusals of the whole list: 3, 4, 5. */
uint32_t divisor_index_run(uint8_t *image, size_t image_len,
                           const uint8_t *list, size_t list_len,
                           uint8_t *answers, size_t answers_len);

/* Writes the monomials of an index of monomials, one behind the other, in the order of
 * the tree. Room: for each its words, so at most 4 x (variables + 1) bytes an entry.
 * Refusals: 3, 6, 5. */
uint32_t divisor_index_list(const uint8_t *image, size_t image_len,
                            uint8_t *answers, size_t answers_len);

/* MONOMIALS AND RATIOS. a and b are each exactly one monomial (ratio) in 1 to 64
 * variables. DIVISOR_INDEX_MONOMIAL_ROOM suffices for every answer. */

/* The greatest common divisor. Room: at most the lesser of a_len and b_len.
 * Refusals: 1, 7, 5. */
uint32_t divisor_index_monomial_gcd(uint32_t variables,
                                    const uint8_t *a, size_t a_len,
                                    const uint8_t *b, size_t b_len,
                                    uint8_t *out, size_t out_len);

/* The product. Room: at most a_len + b_len - 4. Refusals: 1, 7, 9, 5. */
uint32_t divisor_index_monomial_mul(uint32_t variables,
                                    const uint8_t *a, size_t a_len,
                                    const uint8_t *b, size_t b_len,
                                    uint8_t *out, size_t out_len);

/* The quotient a / b, or 40000000 (hex) where b does not divide a. Room: at most a_len.
 * Refusals: 1, 7, 5. */
uint32_t divisor_index_monomial_whole_division(uint32_t variables,
                                               const uint8_t *a, size_t a_len,
                                               const uint8_t *b, size_t b_len,
                                               uint8_t *out, size_t out_len);

/* The ratio a / b. Room: at most a_len + b_len - 4. Refusals: 1, 7, 5. */
uint32_t divisor_index_monomial_fraction_division(uint32_t variables,
                                                  const uint8_t *a, size_t a_len,
                                                  const uint8_t *b, size_t b_len,
                                                  uint8_t *out, size_t out_len);

/* Whether a divides b: a kind 4 word, yes 1, no 0. Room: 4. Refusals: 1, 7, 5. */
uint32_t divisor_index_monomial_divides(uint32_t variables,
                                        const uint8_t *a, size_t a_len,
                                        const uint8_t *b, size_t b_len,
                                        uint8_t *out, size_t out_len);

/* Whether two monomials, or two ratios, are equal: a kind 4 word, yes 1, no 0. Room: 4.
 * Refusals: 1, 7, 5. */
uint32_t divisor_index_monomial_eq(uint32_t variables,
                                   const uint8_t *a, size_t a_len,
                                   const uint8_t *b, size_t b_len,
                                   uint8_t *out, size_t out_len);
uint32_t divisor_index_ratio_eq(uint32_t variables,
                                const uint8_t *a, size_t a_len,
                                const uint8_t *b, size_t b_len,
                                uint8_t *out, size_t out_len);

/* How two monomials, or two ratios, compare in the graded reverse lexicographic order:
 * a kind 4 word, a is less 0, equal 1, greater 2. Room: 4. Refusals: 1, 7, 5. */
uint32_t divisor_index_monomial_cmp(uint32_t variables,
                                    const uint8_t *a, size_t a_len,
                                    const uint8_t *b, size_t b_len,
                                    uint8_t *out, size_t out_len);
uint32_t divisor_index_ratio_cmp(uint32_t variables,
                                 const uint8_t *a, size_t a_len,
                                 const uint8_t *b, size_t b_len,
                                 uint8_t *out, size_t out_len);

/* MASKS AND MAXIMA. maxima are as above; monomial is exactly one monomial. */

/* The mask of a monomial, a bare word. Room: 4. Refusals: 1, 7, 5. */
uint32_t divisor_index_divmask_mask(uint32_t variables,
                                    const uint8_t *maxima, size_t maxima_len,
                                    const uint8_t *monomial, size_t monomial_len,
                                    uint8_t *out, size_t out_len);

/* What the masks of two monomials say of whether the first divides the second. Returns
 * 0 for not divisible and 1 for unsure; it refuses nothing and writes nothing. */
uint32_t divisor_index_divmask_divides(uint32_t a, uint32_t b);

/* Raises the maxima in place to the powers of a monomial, from its highest id down to
 * the first variable that is not above its maximum. Refusals: 1, 7. */
uint32_t divisor_index_divmask_update(uint32_t variables,
                                      uint8_t *maxima, size_t maxima_len,
                                      const uint8_t *monomial, size_t monomial_len);

/* Whether the maxima, which began at 1, have grown by more than a percentage of their
 * present total: a kind 4 word, yes 1, no 0. Room: 4. Refusals: 1, 5. */
uint32_t divisor_index_divmask_growth(uint32_t variables,
                                      const uint8_t *maxima, size_t maxima_len,
                                      uint8_t percentage,
                                      uint8_t *out, size_t out_len);

/* THE LABEL MAP, in an image of the caller's: labels that rise with values, of which
 * each is a signature index and a ratio. */

/* The length of an image in bytes, which is above 16 and at most 1,114,128; or 1,
 * refused: variables are 1 to 64, capacity is 1 to 4,096 values. */
uint32_t divisor_index_fast_compare_length(uint32_t variables, uint32_t capacity);

/* Writes an empty map. Room: the length above; bytes past it are not touched, here and
 * below. Refusals: 1, 2. */
uint32_t divisor_index_fast_compare_open(uint32_t variables, uint32_t capacity,
                                         uint8_t *image, size_t image_len);

/* Returns the label of a value, which is below 2^32 and which is stored if it is new;
 * or a refusal x 2^32: 3, 7, 8, 10. index is a bare number below 2^28, ratio exactly one
 * ratio. */
uint64_t divisor_index_fast_compare_get_comparer(uint8_t *image, size_t image_len,
                                                 uint32_t index,
                                                 const uint8_t *ratio, size_t ratio_len);

/* Spaces the labels evenly, in place. Refusal: 3. */
uint32_t divisor_index_fast_compare_rebuild(uint8_t *image, size_t image_len);

#ifdef __cplusplus
}
#endif

#endif
