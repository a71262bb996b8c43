/* The operations of libyoksimert.a, proved against document 01 ("Line records") and document 02.
 *
 * Every function takes any numbers and ends. It reads and writes nothing but what it is lent, and keeps no pointer. A lent slice is a
 * pointer and a number of elements; the pointer is valid for so many elements, and not null even where there are none. A slice that is
 * lent to be altered overlaps no other slice of the call. Starts count elements from the slice's beginning.
 *
 * An answer's number is 0 where the call is accepted, and else the number of the refusal in documents 01 and 02, which has a name below. On
 * a refusal the slices are as they were.
 */
#ifndef YOKSIMERT_H
#define YOKSIMERT_H

#include <stdbool.h>
#include <stddef.h>
#include <stdint.h>

#ifdef __cplusplus
extern "C" {
#endif

/* The version of this interface. An archive has one function that is named by its version, and answers it; a program that includes this
 * header refers to the one of the header's version, called or not, so that it links with no archive of another. */
#define YOKSIMERT_VERSION 1
#define yoksimert_version yoksimert_version_1
uint32_t yoksimert_version_1(void);

#ifdef __has_attribute
#if __has_attribute(retain)
#define YOKSIMERT_KEPT __attribute__((used, retain))
#elif __has_attribute(used)
#define YOKSIMERT_KEPT __attribute__((used))
#endif
#endif
#ifdef YOKSIMERT_KEPT
static uint32_t (*const yoksimert_linked)(void) YOKSIMERT_KEPT = yoksimert_version;
#endif

/* The refusals. */
enum {
    YOKSIMERT_WIDTH_TOO_LARGE = 1, /* width above 4,096 */
    YOKSIMERT_BAD_RECORD = 2, /* not a record, or not within a slice */
    YOKSIMERT_WRONG_KIND = 3, /* another kind of record */
    YOKSIMERT_WRONG_LENGTH = 4, /* length of a string */
    YOKSIMERT_FOREIGN_CHARACTER = 5, /* foreign character */
    YOKSIMERT_INDEX_BELOW_LAST = 6, /* index below the last one kept */
    YOKSIMERT_NO_ROOM = 7, /* no room in a slice, or above the maximum of 1,048,576 entries */
    YOKSIMERT_NO_SUCH_ENTRY = 8, /* no such entry */
    YOKSIMERT_BAD_MARK = 9, /* an entry's mark is no set's, or above the largest set */
    YOKSIMERT_BAD_CODE = 10, /* an entry has a code that is no level's */
    YOKSIMERT_INDEX_FALLS = 11, /* a time index falls */
    YOKSIMERT_BAD_RANGE = 12, /* a piece's msb is below its lsb, or above 4,095 */
    YOKSIMERT_DERIVATION_FULL = 13, /* a ninth input, a 65th piece, or a sum of widths above 4,096 */
    YOKSIMERT_BAD_DERIVATION = 14, /* not a derivation, or not one of these inputs */
    YOKSIMERT_LATE_INPUT = 15, /* an input is empty, or doesn't start at index 0 */
    YOKSIMERT_WRONG_WIDTH = 16, /* a width above 64, or, for packed decimal, not a multiple of 4 */
    YOKSIMERT_NOT_BINARY = 17, /* a level that is neither 0 nor 1 */
    YOKSIMERT_NOT_DECIMAL = 18 /* a digit of packed decimal is above 9 */
};

/* A record without its bytes and time indices, which the caller keeps and lends. Kind: 0 event, 1 real, 2 bit vector. Set: the largest
 * set, 0 for Two, 1 for Four, 2 for Nine. The width and the set of an event and of a real are 0. Other numbers are no description, and
 * refused with 2. */
typedef struct yoksimert_description {
    uint32_t kind;
    uint32_t width;
    uint32_t set;
    uint32_t count;
} yoksimert_description;

/* On a refusal the kind is 3, which is none, and the rest 0. */
typedef struct yoksimert_made {
    uint32_t number;
    yoksimert_description description;
} yoksimert_made;

/* An entry's kind and own set, and the place of its levels in the lent bytes, a mark in their first byte included. On a refusal all but
 * the number is 0. */
typedef struct yoksimert_entry {
    uint32_t number;
    uint32_t kind;
    uint32_t set;
    size_t start;
    size_t length;
} yoksimert_entry;

/* The number that an entry's levels stand for. On a refusal the value is 0. */
typedef struct yoksimert_number {
    uint32_t number;
    uint64_t value;
} yoksimert_number;

/* The same with a sign. On a refusal the value is 0. */
typedef struct yoksimert_signed_number {
    uint32_t number;
    int64_t value;
} yoksimert_signed_number;

/* On a refusal they are not equal. */
typedef struct yoksimert_equal {
    uint32_t number;
    bool equal;
} yoksimert_equal;

/* For the greatest index not above the sought one: its first entry, how many entries carry it, whether it is the sought one, and the next
 * greater index. Where nothing is found all but the number is 0; where there is no next index, that is 0. */
typedef struct yoksimert_offset {
    uint32_t number;
    bool found;
    size_t start;
    uint32_t elements;
    bool time_match;
    bool has_next;
    uint32_t next_index;
} yoksimert_offset;

/* A derivation without the names of its inputs and its pieces, which the caller keeps in two arrays and lends: eight names, of which
 * input_count are used, and 64 pieces, of which piece_count are used, the highest first, each input * 2^48 + width * 2^32 + lsb. All
 * zeros is the derivation of no piece. */
typedef struct yoksimert_derivation {
    uint32_t width;
    uint32_t input_count;
    uint32_t piece_count;
} yoksimert_derivation;

/* The derivation for the next call, on a refusal the given one. */
typedef struct yoksimert_joined {
    uint32_t number;
    yoksimert_derivation next;
} yoksimert_joined;

/* An input record of Derive, and where it starts in the slices that all inputs share. */
typedef struct yoksimert_input {
    yoksimert_description description;
    size_t byte_start;
    size_t index_start;
} yoksimert_input;

/* The input records of Derive, in the order of the derivation's names. Those from count on are not looked at. */
typedef struct yoksimert_inputs {
    uint32_t count;
    yoksimert_input inputs[8];
} yoksimert_inputs;

/* Fresh: the empty record of a width; width 0 makes an event. Refused: 1. */
yoksimert_made yoksimert_fresh(uint32_t width);

/* Fresh: the empty record of reals. */
yoksimert_description yoksimert_fresh_real(void);

/* The recorder lent: the calls below alter a description in place, which lies in no slice of the call. The answer is the number. On a
 * refusal the description is as it was. */

/* Fresh, whatever the description was. Refused: 1. */
uint32_t yoksimert_recorder_fresh(yoksimert_description *recorder, uint32_t width);

/* Fresh of reals, whatever the description was. The answer is 0. */
uint32_t yoksimert_recorder_fresh_real(yoksimert_description *recorder);

/* Add a change: a string of characters, one for each level. Refused: 2, 3, 4, 5, 6, 7. */
uint32_t yoksimert_recorder_add_change(
    yoksimert_description *recorder,
    uint8_t *bytes,
    size_t bytes_len,
    size_t byte_start,
    uint32_t *indices,
    size_t indices_len,
    size_t index_start,
    uint32_t index,
    const uint8_t *value,
    size_t value_len);

/* Add a change: a real, by the 64 bits of its double. Refused: 2, 3, 6, 7. */
uint32_t yoksimert_recorder_add_real(
    yoksimert_description *recorder,
    uint8_t *bytes,
    size_t bytes_len,
    size_t byte_start,
    uint32_t *indices,
    size_t indices_len,
    size_t index_start,
    uint32_t index,
    uint64_t bits);

/* Read an entry. Refused: 2, 8, 9. */
yoksimert_entry yoksimert_read(
    yoksimert_description description,
    const uint8_t *bytes,
    size_t bytes_len,
    size_t byte_start,
    uint32_t entry);

/* Text of an entry, into the first bytes of out. The answer is the number. Refused: 2, 3, 8, 9, 10, 7. */
uint32_t yoksimert_text(
    yoksimert_description description,
    const uint8_t *bytes,
    size_t bytes_len,
    size_t byte_start,
    uint32_t entry,
    uint8_t *out,
    size_t out_len);

/* Numbers: the levels of an entry of width 1 to 64 as a binary number without a sign, the first the highest. Refused: 2, 3, 8, 9, 10, 16,
 * 17. */
yoksimert_number yoksimert_unsigned(
    yoksimert_description description,
    const uint8_t *bytes,
    size_t bytes_len,
    size_t byte_start,
    uint32_t entry);

/* The same in two's complement: the first level says whether the number is below 0. Refused: 2, 3, 8, 9, 10, 16, 17. */
yoksimert_signed_number yoksimert_signed(
    yoksimert_description description,
    const uint8_t *bytes,
    size_t bytes_len,
    size_t byte_start,
    uint32_t entry);

/* The same in packed decimal: each four levels are a digit, the first the highest. Refused: 2, 3, 8, 9, 10, 16, 17, 18. */
yoksimert_number yoksimert_decimal(
    yoksimert_description description,
    const uint8_t *bytes,
    size_t bytes_len,
    size_t byte_start,
    uint32_t entry);

/* Compare: whether two records have equal time indices and values. Refused: 2, 9, 10. */
yoksimert_equal yoksimert_compare(
    yoksimert_description a,
    const uint8_t *a_bytes,
    size_t a_bytes_len,
    size_t a_byte_start,
    const uint32_t *a_indices,
    size_t a_indices_len,
    size_t a_index_start,
    yoksimert_description b,
    const uint8_t *b_bytes,
    size_t b_bytes_len,
    size_t b_byte_start,
    const uint32_t *b_indices,
    size_t b_indices_len,
    size_t b_index_start);

/* Look up: the entries that hold at a time index. Refused: 2, 11. */
yoksimert_offset yoksimert_look_up(const uint32_t *indices, size_t indices_len, uint32_t sought);

/* Search: Look up's answer where no time index falls, in steps that grow as the logarithm of their number. Whether one falls is not tried:
 * then the answer says nothing. Refused: 2. */
yoksimert_offset yoksimert_search(const uint32_t *indices, size_t indices_len, uint32_t sought);

/* Add a piece on the left, the most significant side: bits msb to lsb of an input, which is named by any number. Adjoining pieces merge.
 * Refused: 14, 12, 13. */
yoksimert_joined yoksimert_concat_left(
    yoksimert_derivation derivation,
    uint32_t names[8],
    uint64_t pieces[64],
    uint32_t signal,
    uint32_t msb,
    uint32_t lsb);

/* Add a piece on the right, the least significant side. Refused: 14, 12, 13. */
yoksimert_joined yoksimert_concat_right(
    yoksimert_derivation derivation,
    uint32_t names[8],
    uint64_t pieces[64],
    uint32_t signal,
    uint32_t msb,
    uint32_t lsb);

/* Add all wires of an input on the left; no wires add nothing. Refused: 14, 12, 13. */
yoksimert_joined yoksimert_concat_left_full(
    yoksimert_derivation derivation,
    uint32_t names[8],
    uint64_t pieces[64],
    uint32_t signal,
    uint32_t width);

/* Add all wires of an input on the right; no wires add nothing. Refused: 14, 12, 13. */
yoksimert_joined yoksimert_concat_right_full(
    yoksimert_derivation derivation,
    uint32_t names[8],
    uint64_t pieces[64],
    uint32_t signal,
    uint32_t width);

/* Derive: the record of a derivation of bit vectors, into the first bytes and indices of the output slices. Refused: 2, 14, 15, 11, 9, 10,
 * 7. */
yoksimert_made yoksimert_derive(
    yoksimert_derivation derivation,
    const uint32_t names[8],
    const uint64_t pieces[64],
    yoksimert_inputs inputs,
    const uint8_t *bytes,
    size_t bytes_len,
    const uint32_t *indices,
    size_t indices_len,
    uint8_t *out_bytes,
    size_t out_bytes_len,
    uint32_t *out_indices,
    size_t out_indices_len);

#ifdef __cplusplus
}
#endif

#endif
