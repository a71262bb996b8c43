#include <yoksimert.h>

#include <inttypes.h>
#include <stdio.h>

int main(void) {
    uint8_t bytes[8] = {0}, text[4];
    uint32_t indices[2] = {0};
    if (yoksimert_version() != YOKSIMERT_VERSION) return 1;

    yoksimert_description tariff = yoksimert_fresh(4).description;
    const uint8_t none[] = "zzzz", first[] = "0001", second[] = "0010";
    if (yoksimert_recorder_add_change(&tariff, bytes, 8, 0, indices, 2, 0, 0, none, 4) != 0) return 1;
    if (yoksimert_recorder_add_change(&tariff, bytes, 8, 0, indices, 2, 0, 7, first, 4) != 0) return 1;
    uint32_t number = yoksimert_recorder_add_change(&tariff, bytes, 8, 0, indices, 2, 0, 6, second, 4);
    yoksimert_offset found = yoksimert_look_up(indices, 2, 9);
    if (yoksimert_text(tariff, bytes, 8, 0, (uint32_t)found.start, text, 4) != 0) return 1;
    printf("%" PRIu32 ": %.4s\n", indices[found.start], (const char *)text);
    if (number == YOKSIMERT_INDEX_BELOW_LAST) printf("refused: %" PRIu32 "\n", number);
    return 0;
}
