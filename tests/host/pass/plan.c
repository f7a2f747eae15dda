#include "../unread.h"
#include "lines.h"

enum { WORDS = 12 };

static const size_t MOST_READ = ((size_t)1 << 30) - 1;

/* The line of a plan has pel before the two flags, and shifts and planes behind them. */
static void take_search(struct numbers *from, struct hirupango_settings *s, bool *satd) {
    s->search.exhaustive = take(from) != 0;
    s->search.search_param = (int32_t)take(from);
    s->weights.lambda = (int32_t)take(from);
    s->weights.bad_sad = (int32_t)take(from);
    *satd = take(from) != 0; /* which planning does not look at */
    s->block = take_sides(from);
    s->grid = take_sides(from);
    s->step = take_sides(from);
}

static void take_flags(struct numbers *from, struct hirupango_settings *s) {
    s->level.smallest = take(from) != 0;
    s->level.need_luma = take(from) != 0;
}

struct hirupango_settings take_settings(struct numbers *from, size_t lengths[3], bool *satd) {
    struct hirupango_settings s;
    take_search(from, &s, satd);
    s.level.pel = (int32_t)take(from);
    take_flags(from, &s);
    s.shift = take_sides(from);
    s.planes.luma = take_place(from, s.level.pel, lengths);
    s.planes.u = take_place(from, s.level.pel, lengths + 1);
    s.planes.v = take_place(from, s.level.pel, lengths + 2);
    return s;
}

void take_settings_on_level(struct numbers *from, struct hirupango_settings *s, bool *satd) {
    take_search(from, s, satd);
    take_flags(from, s);
}

/* A number that an export gives as four bytes. */
static int64_t word_of(uint32_t number, const uint8_t out[4]) {
    uint32_t word = out[0] | (uint32_t)out[1] << 8 | (uint32_t)out[2] << 16 | (uint32_t)out[3] << 24;
    return number == 0 ? (int32_t)word : -1;
}

static bool slots_agree(int32_t search_param, int64_t slots) {
    uint8_t out[4] = {0};
    uint32_t number = hirupango_slots(search_param, out, sizeof out);
    return word_of(number, out) == slots;
}

static bool diagonal_agrees(struct hirupango_settings s, int64_t diagonal) {
    uint8_t out[4] = {0};
    uint32_t number = hirupango_diagonal(s.planes.luma.width, s.planes.luma.height, s.level.pel, out, sizeof out);
    return word_of(number, out) == diagonal;
}

bool made_agrees(struct hirupango_settings s, struct numbers *answers) {
    int64_t slots = take(answers), diagonal = take(answers);
    return slots_agree(s.search.search_param, slots) && diagonal_agrees(s, diagonal);
}

/* Where the Rust refuses it says only so. Here that is 1 or 6, or 3 where a plane's data are too long. */
static bool is_refusal(uint32_t number, const size_t lengths[3]) {
    bool too_long = lengths[0] > MOST_READ || lengths[1] > MOST_READ || lengths[2] > MOST_READ;
    return number == 1 || number == 6 || (number == 3 && too_long);
}

static bool done_agrees(struct hirupango_settings s, size_t n, struct lent records, struct lent indices,
                        struct numbers answers) {
    return take(&answers) == 0 && made_agrees(s, &answers) && take(&answers) == (int64_t)n &&
           holds(records, WORDS * n, &answers) && holds(indices, n, &answers) && used_up(&answers);
}

/* A refusal changes nothing lent. */
static bool refused_agrees(uint32_t number, const size_t lengths[3], struct lent records, struct lent indices,
                           struct numbers answers) {
    return take(&answers) == -1 && is_refusal(number, lengths) && holds(records, 0, &answers) &&
           holds(indices, 0, &answers) && used_up(&answers);
}

bool plan_agrees(size_t line, struct numbers inputs, struct numbers answers) {
    size_t lengths[3];
    bool satd;
    struct hirupango_settings s = take_settings(&inputs, lengths, &satd);
    size_t n = (size_t)take(&inputs);
    int32_t *order = take_words(&inputs, 2 * n);
    size_t held = (size_t)take(&inputs);
    int32_t *vectors = take_words(&inputs, 3 * held);
    bool agrees = used_up(&inputs) && lengths[0] <= MOST_UNREAD && lengths[1] <= MOST_UNREAD && lengths[2] <= MOST_UNREAD;
    if (agrees) {
        const uint8_t *bytes = unread_bytes();
        struct lent records = lend(WORDS * n, line), indices = lend(n, line);
        uint32_t number =
            noted(hirupango_plan(s, order, 2 * n, vectors, 3 * held, bytes, lengths[0], bytes, lengths[1], bytes, lengths[2],
                                 records.at, records.length, indices.at, indices.length));
        agrees = number == 0 ? done_agrees(s, n, records, indices, answers)
                             : refused_agrees(number, lengths, records, indices, answers);
        free(records.at);
        free(indices.at);
    }
    free(order);
    free(vectors);
    return agrees;
}
