/* The fifth number of a best on small planes, where it can be counted by hand: how many reference samples at the vector answered lie outside the
 * data. An 8x8 block in the corner of 16x16 at pel 2, of whose subplanes the data have the first alone, plain, negative and not bad; V with data and
 * rows of its own; a best that is not the predictor; and at pel 1 one that was given the luma of another column.
 * Every source sample is SOURCE, every reference sample that is there PRESENT, and one that is not there weighs 0: so the SAD tells which were. */
#include "best.h"
#include "cases.h"
#include "expect.h"

enum { SIDE = 16, FIRST = SIDE * SIDE, WHOLE = 4 * FIRST, WIDE = SIDE + 4, WIDE_FIRST = (SIDE - 1) * WIDE + SIDE, WORDS = 12, BAD = 1, NEGATIVE = 2 };
enum { SOURCE = 5, PRESENT = 9, FAR = 20 };

static uint8_t source[FIRST], reference[WHOLE];

/* What is asked of the block at a pixel: the record's words, how many bytes of the reference's planes are lent, and the pitch of V's. */
struct block {
    int32_t pel, pixel, predictor, window_x, window_y, lambda, flags;
    int32_t luma, u, v, v_pitch;
};

/* In the corner at pel 2, its window empty, the first subplane of every plane lent. */
static struct block corner(int32_t x, int32_t y, int32_t flags) {
    struct block made = {2, 0, pair(x, y), pair(0, -1), pair(0, -1), 0, flags, FIRST, FIRST, FIRST, SIDE};
    return made;
}

static void expect_best(const char *what, struct block b, const int32_t expected[NUMBERS]) {
    struct hirupango_place place = {0, SIDE, SIDE, SIDE, b.pel}, v = {0, b.v_pitch, SIDE, SIDE, b.pel};
    struct hirupango_request q = {false, {8, 8}, {0, 0}, 1, 0, b.pel, {place, place, place}, {place, place, v}};
    int32_t position = pair(b.pixel * b.pel, b.pixel * b.pel), origin = b.pixel * SIDE + b.pixel;
    int32_t record[WORDS] = {origin,   INT32_MIN,   origin,     origin,     origin, position,
                             position, b.predictor, b.window_x, b.window_y, 10,     b.lambda * 4 + b.flags};
    int32_t found[2 * NUMBERS];
    mark(found, 2 * NUMBERS);
    new_case("evaluate", what);
    given(&b, sizeof b);
    given_number(reference[0]);
    uint32_t number = hirupango_evaluate(q, record, WORDS, source, FIRST, source, FIRST, source, FIRST, reference, (size_t)b.luma, reference,
                                         (size_t)b.u, reference, (size_t)b.v, found, NUMBERS);
    expect(number == 0, "number", number, 0);
    for (int i = 0; i < NUMBERS; i++) expect(found[i] == expected[i], "x, y, SAD, average or what is outside", found[i], expected[i]);
    expect(marked(found, NUMBERS, 2 * NUMBERS), "what is behind the best has changed", 1, 0);
}

#define BEST(what, block, ...) expect_best(what, block, (const int32_t[NUMBERS]){__VA_ARGS__})

/* A plain block has 64 samples in each of three planes, a negative one 16 of luma alone, and its SAD counts three times. */
static void first_subplane(void) {
    BEST("all is there", corner(0, 0, BAD), 0, 0, 768, 5, 0);
    BEST("nothing is there", corner(1, 0, BAD), 1, 0, 960, 5, 192);
    BEST("the first sample alone is there", corner(-1, 0, BAD), -1, 0, 957, 5, 189);
    BEST("the first sample alone is not there", corner(-2, 0, BAD), -2, 0, 771, 5, 3);
    BEST("a row above the data", corner(0, -2, BAD), 0, -2, 792, 5, 24);
    BEST("a row below the data", corner(0, 18, BAD), 0, 18, 792, 5, 24);
    BEST("a sample behind the data", corner(18, 16, BAD), 18, 16, 771, 5, 3);
    BEST("far above the data", corner(0, -32768, BAD), 0, -32768, 960, 5, 192);
    BEST("negative, all is there", corner(0, 0, BAD | NEGATIVE), 0, 0, 192, 5, 0);
    BEST("negative, nothing is there", corner(1, 0, BAD | NEGATIVE), 1, 0, 240, 5, 16);
    BEST("negative, the first sample alone is there", corner(-1, 0, BAD | NEGATIVE), -1, 0, 237, 5, 15);
    BEST("negative, the first sample alone is not there", corner(-2, 0, BAD | NEGATIVE), -2, 0, 195, 5, 1);
}

static void not_bad(void) {
    BEST("not bad", corner(0, 0, 0), 0, 0, 10, 5, -1);
    BEST("not bad, nothing is there", corner(1, 0, 0), 1, 0, 10, 5, -1);
    BEST("not bad, negative", corner(1, 0, NEGATIVE), 1, 0, 30, 5, -1);
}

/* The corner with other chroma planes. */
static struct block with_chroma(struct block b, int32_t u, int32_t v, int32_t v_pitch) {
    b.u = u;
    b.v = v;
    b.v_pitch = v_pitch;
    return b;
}

/* U's and V's samples are read from one place on, which is U's. Of V's longer rows three are there behind it and, a sample earlier, the first
 * sample of the fourth. */
static void chroma(void) {
    struct block right = corner(1, 0, BAD), left = corner(-1, 0, BAD);
    BEST("V alone has the second subplane", with_chroma(right, FIRST, WHOLE, SIDE), 1, 0, 896, 5, 128);
    BEST("U alone has the second subplane", with_chroma(right, WHOLE, FIRST, SIDE), 1, 0, 896, 5, 128);
    BEST("V has longer rows", with_chroma(right, FIRST, WIDE_FIRST, WIDE), 1, 0, 936, 5, 168);
    BEST("V has longer rows, U the second subplane", with_chroma(right, WHOLE, WIDE_FIRST, WIDE), 1, 0, 872, 5, 104);
    BEST("V alone has the second subplane, a sample earlier", with_chroma(left, FIRST, WHOLE, SIDE), -1, 0, 894, 5, 126);
    BEST("U alone has the second subplane, a sample earlier", with_chroma(left, WHOLE, FIRST, SIDE), -1, 0, 894, 5, 126);
    BEST("V has longer rows, a sample earlier", with_chroma(left, FIRST, WIDE_FIRST, WIDE), -1, 0, 933, 5, 165);
    BEST("negative, whatever chroma has", with_chroma(corner(1, 0, BAD | NEGATIVE), WHOLE, WHOLE, SIDE), 1, 0, 240, 5, 16);
}

/* The corner with one candidate, (x,0). */
static struct block towards(struct block b, int32_t x) {
    b.window_x = pair(x, x);
    b.window_y = pair(0, 0);
    return b;
}

/* Where nothing is there a sample costs SOURCE: more than one that is there, and less where the reference is far from the source. */
static void answered_elsewhere(void) {
    BEST("away from where nothing is there", towards(corner(1, 0, BAD), 0), 0, 0, 768, 5, 0);
    memset(reference, FAR, WHOLE);
    BEST("to where nothing is there", towards(corner(0, 0, BAD), 1), 1, 0, 960, 5, 192);
    memset(reference, PRESENT, WHOLE);
}

/* At pel 1 the predictor (1,0) of the last block leaves one sample of each plane behind the data. Of its row it alone passes the distance test, and
 * it is given the luma of column -1, all of which is there: a SAD of 1 less. What is outside is counted at the vector itself. */
static void other_column(void) {
    struct block last = {1, 8, pair(1, 0), pair(-1, 1), pair(0, 0), 256 * 1000, BAD, FIRST, FIRST, FIRST, SIDE};
    BEST("pel 1, the luma of another column", last, 1, 0, 770, 5, 3);
    last.window_x = pair(1, 1);
    BEST("pel 1, its own luma", last, 1, 0, 771, 5, 3);
}

void absent_tests(void) {
    memset(source, SOURCE, FIRST);
    memset(reference, PRESENT, WHOLE);
    first_subplane();
    not_bad();
    chroma();
    answered_elsewhere();
    other_column();
}
