/* Makes so many calls of one operation, for tools/instructions: OPERATION SET WIDTH CALLS. */
#include "yoksimert.h"
#include <stdlib.h>
#include <string.h>

enum { ENTRIES = 16, BYTES = 1 << 12, MOST = 64, REAL = 0x3ff00000 };

static uint8_t bytes[2][BYTES];
static uint32_t indices[2][MOST];
static volatile uint64_t sink;
static const char *const letters[] = {"01", "01xz", "01xzhuwl-"};

static uint32_t add(yoksimert_description *record, int lent, uint32_t index, const uint8_t *value, uint32_t width) {
    return yoksimert_recorder_add_change(record, bytes[lent], BYTES, 0, indices[lent], MOST, 0, index, value, width);
}

static uint32_t add_real(yoksimert_description *record, int lent, uint32_t index) {
    return yoksimert_recorder_add_real(record, bytes[lent], BYTES, 0, indices[lent], MOST, 0, index, ((uint64_t)REAL << 32) + index);
}

/* A string of letters without order; the first of a record has the last letter of its set, which makes that the record's. */
static void draw(uint8_t *value, const char *from, uint32_t width, uint32_t *seed) {
    for (uint32_t i = 0; i < width; i++) {
        *seed = *seed * 1103515245 + 12345;
        value[i] = from[(*seed >> 16) % strlen(from)];
    }
}

static yoksimert_description fill(int set, int own, uint32_t width, int lent) {
    yoksimert_description record = yoksimert_fresh(width).description;
    uint8_t value[MOST];
    uint32_t seed = 1;
    for (uint32_t index = 0; index < ENTRIES; index++) {
        draw(value, letters[own], width, &seed);
        if (index == 0 && set > 0) value[0] = letters[set][strlen(letters[set]) - 1];
        sink += add(&record, lent, index, value, width);
    }
    return record;
}

/* 64 changes of a record, one of two strings in turn or the same one, until so many are made. */
static void changes(int set, uint32_t width, int calls, int repeats) {
    uint8_t values[2][MOST];
    uint32_t seed = 1;
    for (int i = 0; i < 2; i++) draw(values[i], letters[set], width, &seed);
    if (set > 0) values[0][0] = values[1][width - 1] = letters[set][strlen(letters[set]) - 1];
    if (values[0][0] == values[1][0]) values[1][0] = values[0][0] == '0' ? '1' : '0';
    for (int made = 0; made < calls;) {
        yoksimert_description record = yoksimert_fresh(width).description;
        for (uint32_t index = 0; index < MOST; index++, made++) sink += add(&record, 0, index, values[repeats ? 0 : index & 1], width);
    }
}

static void reals(int calls) {
    for (int made = 0; made < calls;) {
        yoksimert_description record = yoksimert_fresh_real();
        for (uint32_t index = 0; index < MOST; index++, made++) sink += add_real(&record, 0, index);
    }
}

static void compare(yoksimert_description a, yoksimert_description b, int calls) {
    for (int i = 0; i < calls; i++)
        sink += yoksimert_compare(a, bytes[0], BYTES, 0, indices[0], MOST, 0, b, bytes[1], BYTES, 0, indices[1], MOST, 0).equal;
}

static void compare_reals(int calls) {
    yoksimert_description records[2];
    for (int lent = 0; lent < 2; lent++) {
        records[lent] = yoksimert_fresh_real();
        for (uint32_t index = 0; index < ENTRIES; index++) sink += add_real(&records[lent], lent, index);
    }
    compare(records[0], records[1], calls);
}

int main(int count, char **words) {
    if (count != 5) return 2;
    const char *operation = words[1];
    int set = atoi(words[2]), calls = atoi(words[4]);
    uint32_t width = (uint32_t)atoi(words[3]);
    uint8_t out[MOST];
    if (strcmp(operation, "change") == 0) changes(set, width, calls, 0);
    else if (strcmp(operation, "repeat") == 0) changes(set, width, calls, 1);
    else if (strcmp(operation, "real") == 0) reals(calls);
    else if (strcmp(operation, "compare-reals") == 0) compare_reals(calls);
    else if (strcmp(operation, "compare") == 0) compare(fill(set, set, width, 0), fill(set, set, width, 1), calls);
    else {
        int binary = strcmp(operation, "unsigned") == 0 || strcmp(operation, "decimal") == 0;
        yoksimert_description record = fill(set, binary ? 0 : set, width, 0);
        for (int i = 0; i < calls; i++) {
            uint32_t entry = (uint32_t)i % record.count;
            if (strcmp(operation, "read") == 0) sink += yoksimert_read(record, bytes[0], BYTES, 0, entry).length;
            else if (strcmp(operation, "text") == 0) sink += yoksimert_text(record, bytes[0], BYTES, 0, entry, out, MOST);
            else if (strcmp(operation, "unsigned") == 0) sink += yoksimert_unsigned(record, bytes[0], BYTES, 0, entry).value;
            else if (strcmp(operation, "decimal") == 0) sink += yoksimert_decimal(record, bytes[0], BYTES, 0, entry).value;
            else return 2;
        }
    }
    return 0;
}
