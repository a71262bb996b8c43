/* Some of document 01's rows through the header, from C. */
#include "yoksimert.h"

#include <inttypes.h>
#include <stdio.h>
#include <string.h>

static const uint8_t *text(const char *string) { return (const uint8_t *)string; }

static void show(const char *row, const uint8_t *bytes, size_t count) {
    printf("%s:", row);
    for (size_t at = 0; at < count; at++) printf(" %02X", bytes[at]);
    printf("\n");
}

/* An entry of these levels read in the three ways: of each answer the number and the value. */
static void show_numbers(const char *levels) {
    uint8_t bytes[64] = {0};
    uint32_t index = 0;
    size_t width = strlen(levels);
    yoksimert_description recorder = yoksimert_fresh((uint32_t)width).description;
    yoksimert_recorder_add_change(&recorder, bytes, 64, 0, &index, 1, 0, 0, text(levels), width);
    yoksimert_number unsigned_number = yoksimert_unsigned(recorder, bytes, 64, 0, 0);
    yoksimert_signed_number signed_number = yoksimert_signed(recorder, bytes, 64, 0, 0);
    yoksimert_number decimal_number = yoksimert_decimal(recorder, bytes, 64, 0, 0);
    printf("w%zu: unsigned %" PRIu32 " %" PRIu64 ", signed %" PRIu32 " %" PRId64 ", decimal %" PRIu32 " %" PRIu64 "\n", width, unsigned_number.number,
           unsigned_number.value, signed_number.number, signed_number.value, decimal_number.number, decimal_number.value);
}

int main(void) {
    uint8_t bytes[8] = {0};
    uint32_t indices[4] = {0};

    /* Rows 3 and 4. */
    yoksimert_description recorder = yoksimert_fresh(3).description;
    yoksimert_recorder_add_change(&recorder, bytes, 8, 0, indices, 4, 0, 0, text("x01"), 3);
    show("3", bytes, 1);
    yoksimert_recorder_add_change(&recorder, bytes, 8, 0, indices, 4, 0, 1, text("hz1"), 3);
    show("4", bytes, 4);

    /* Row 8. */
    uint32_t numbers[5];
    numbers[0] = yoksimert_recorder_fresh(&recorder, 1);
    numbers[1] = yoksimert_recorder_add_change(&recorder, bytes, 8, 0, indices, 4, 0, 5, text("0"), 1);
    numbers[2] = yoksimert_recorder_add_change(&recorder, bytes, 8, 0, indices, 4, 0, 10, text("0"), 1);
    numbers[3] = yoksimert_recorder_add_change(&recorder, bytes, 8, 0, indices, 4, 0, 7, text("1"), 1);
    numbers[4] = yoksimert_recorder_add_change(&recorder, bytes, 8, 0, indices, 4, 0, 6, text("0"), 1);
    printf("8: %u %u %u %u %u, %u entries at %u %u\n", numbers[0], numbers[1], numbers[2], numbers[3], numbers[4], recorder.count, indices[0],
           indices[1]);

    /* Row 9. */
    const uint32_t times[4] = {0, 5, 5, 9};
    yoksimert_offset offset = yoksimert_look_up(times, 4, 6);
    printf("9: start %zu, %u, %s, next %u\n", offset.start, offset.elements, offset.time_match ? "equal" : "unequal", offset.next_index);

    /* Row 12: a slice of bit 0. */
    yoksimert_recorder_fresh(&recorder, 2);
    yoksimert_recorder_add_change(&recorder, bytes, 8, 0, indices, 4, 0, 0, text("x1"), 2);
    yoksimert_recorder_add_change(&recorder, bytes, 8, 0, indices, 4, 0, 4, text("01"), 2);
    uint32_t names[8] = {0};
    uint64_t pieces[64] = {0};
    yoksimert_joined joined = yoksimert_concat_left((yoksimert_derivation){0}, names, pieces, 3, 0, 0);
    yoksimert_inputs inputs;
    memset(&inputs, 0, sizeof inputs);
    inputs.count = 1;
    inputs.inputs[0].description = recorder;
    uint8_t out[2] = {0};
    uint32_t out_indices[2] = {0};
    yoksimert_made made = yoksimert_derive(joined.next, names, pieces, inputs, bytes, 8, indices, 4, out, 2, out_indices, 2);
    show("12", out, made.description.count);

    /* The text of its first entry, and a comparison with itself. */
    uint8_t string[2] = {0};
    uint32_t number = yoksimert_text(made.description, out, 2, 0, 0, string, 2);
    yoksimert_equal equal = yoksimert_compare(made.description, out, 2, 0, out_indices, 2, 0, made.description, out, 2, 0, out_indices, 2, 0);
    printf("text: %u %s, compared: %u %s\n", number, (const char *)string, equal.number, equal.equal ? "equal" : "unequal");

    /* Document 02: both ends at width 64, -1 at width 1, a fare, and the three refusals. */
    show_numbers("1");
    show_numbers("001101000101");
    show_numbers("1111111111111111111111111111111111111111111111111111111111111111");
    show_numbers("1000000000000000000000000000000000000000000000000000000000000000");
    show_numbers("0111111111111111111111111111111111111111111111111111111111111111");
    show_numbers("1001100110011001100110011001100110011001100110011001100110011001");
    show_numbers("10000000000000000000000000000000000000000000000000000000000000000");
    show_numbers("1x");
    show_numbers("000x");
    show_numbers("1010");

    /* Document 02: 70,000 entries on one index. */
    static const uint32_t equal_indices[70000] = {0};
    offset = yoksimert_look_up(equal_indices, 70000, 5);
    printf("equal: start %zu, %u\n", offset.start, offset.elements);
    offset = yoksimert_search(equal_indices, 70000, 5);
    printf("searched: start %zu, %u\n", offset.start, offset.elements);
    return 0;
}
