#include "lines.h"
#include "../marks.h"

/* No plane of the oracle's is as long: where a number is missing, another stands in the length's place. */
enum { MORE = 5, BEHIND = 3, MOST_BYTES = 1 << 24 };

static uint32_t refusal;

uint32_t noted(uint32_t number) {
    if (refusal == 0) refusal = number;
    return number;
}

uint32_t told_refusal(void) {
    uint32_t number = refusal;
    refusal = 0;
    return number;
}

int64_t take(struct numbers *from) {
    if (from->left == 0) {
        from->short_of = true;
        return 0;
    }
    from->left--;
    return *from->at++;
}

bool used_up(const struct numbers *from) {
    return from->left == 0 && !from->short_of;
}

int32_t *take_words(struct numbers *from, size_t count) {
    if (count > from->left) {
        from->short_of = true;
        count = 0;
    }
    int32_t *words = malloc((count + 1) * sizeof *words);
    for (size_t i = 0; i < count; i++) words[i] = (int32_t)take(from);
    return words;
}

struct lent lend(size_t needed, size_t line) {
    struct lent buffer = {NULL, needed + line % 2 * MORE, 0};
    buffer.whole = buffer.length + BEHIND;
    buffer.at = malloc(buffer.whole * sizeof *buffer.at);
    for (size_t i = 0; i < buffer.whole; i++) buffer.at[i] = mark_of(i);
    return buffer;
}

void start_with(struct lent buffer, size_t count, int32_t word) {
    for (size_t i = 0; i < count; i++) buffer.at[i] = word;
}

bool holds(struct lent buffer, size_t count, struct numbers *answers) {
    for (size_t i = 0; i < count; i++)
        if (buffer.at[i] != take(answers)) return false;
    for (size_t i = count; i < buffer.whole; i++)
        if (buffer.at[i] != mark_of(i)) return false;
    return true;
}

struct hirupango_sides take_sides(struct numbers *from) {
    struct hirupango_sides sides;
    sides.x = (int32_t)take(from);
    sides.y = (int32_t)take(from);
    return sides;
}

struct hirupango_place take_place(struct numbers *from, int32_t pel, size_t *length) {
    struct hirupango_place place;
    place.base = (size_t)take(from);
    place.pitch = (int32_t)take(from);
    place.width = (int32_t)take(from);
    place.height = (int32_t)take(from);
    place.pel = pel;
    *length = (size_t)take(from);
    return place;
}

struct bytes take_bytes(struct numbers *from, size_t length) {
    uint32_t seed = (uint32_t)take(from), levels = (uint32_t)take(from);
    if (length > MOST_BYTES) from->short_of = true;
    struct bytes made = {NULL, from->short_of ? 0 : length};
    made.at = malloc(made.length + 1);
    for (size_t i = 0; i < made.length; i++) {
        uint32_t h = ((uint32_t)i + seed * 7919u) * 2654435761u;
        uint32_t g = (h + h / 32768u) * 2246822519u;
        made.at[i] = (uint8_t)((g / 16777216u) * levels / 256u);
    }
    return made;
}
