/* Two bests of evaluating that show its order of tests: the paper's luma column at pel 1, and a tie at the luma test. */
#include "best.h"
#include "cases.h"
#include "expect.h"

enum { SIDE = 32, BYTES = SIDE * SIDE, WORDS = 12, AT = 8 };

static const uint8_t source[BYTES];
static uint8_t luma[BYTES], u[BYTES], v[BYTES];

/* Reference planes of 0 that a test writes some samples into; (x, y) is a pixel of the block at (8,8), counted from its corner. */
static void clear(void) {
    memset(luma, 0, BYTES);
    memset(u, 0, BYTES);
    memset(v, 0, BYTES);
}

static void put(uint8_t *plane, int x, int y, uint8_t sample) {
    plane[(AT + y) * SIDE + AT + x] = sample;
}

struct search {
    int32_t pel, radius, pnew, lambda, predictor, window_x, window_y;
};

/* One plain bad 8x8 block at (8,8), SAD, chroma as large as luma, every source sample 0, no sample at its best outside the data. */
static void best(const char *what, struct search s, int32_t x, int32_t y, int32_t sad) {
    struct hirupango_place place = {0, SIDE, SIDE, SIDE, s.pel};
    struct hirupango_request q = {false, {8, 8}, {0, 0}, s.radius, s.pnew, s.pel, {place, place, place}, {place, place, place}};
    int32_t corner = pair(AT * s.pel, AT * s.pel), origin = AT * SIDE + AT;
    int32_t record[WORDS] = {origin,      INT32_MIN,  origin,     origin, origin,          corner, corner,
                             s.predictor, s.window_x, s.window_y, 0,      s.lambda * 4 + 1};
    int32_t expected[NUMBERS] = {x, y, sad, 0, 0}, found[2 * NUMBERS];
    mark(found, 2 * NUMBERS);
    new_case("evaluate", what);
    given(&s, sizeof s);
    given(luma, BYTES);
    uint32_t number = hirupango_evaluate(q, record, WORDS, source, BYTES, source, BYTES, source, BYTES, luma, BYTES, u, BYTES, v, BYTES,
                                         found, NUMBERS);
    expect(number == 0, "number", number, 0);
    for (int i = 0; i < NUMBERS; i++) expect(found[i] == expected[i], "x, y, SAD, average or what is outside", found[i], expected[i]);
    expect(marked(found, NUMBERS, 2 * NUMBERS), "what is behind the best has changed", 1, 0);
}

/* Of row 0 only vector 0 passes the distance test: the others cost 100 and more, and the least cost is the predictor's 50. At pel 1 it
 * takes the luma of vector -1, which is 20; at pel 2 its own, a tie. Rows -1 and 1 have no candidate that passes. */
static void luma_column(void) {
    struct search s = {1, 1, 0, 25600, pair(0, 0), pair(-1, 1), pair(-1, 1)};
    clear();
    put(luma, 3, 0, 20);
    put(luma, 7, 0, 30);
    best("luma column, pel 1", s, 0, 0, 20);
    s.pel = 2;
    best("luma column, pel 2", s, 0, 0, 50);
}

/* The window is vector (0,0) alone, and the predictor lies one pixel to the right of it: luma 16, chroma 0, so least cost 16. The
 * candidate's chroma of 8 has a penalty that wraps far below 0. With luma 16 it is dropped before that; with luma 15 it is taken. */
static void tie_at_luma(void) {
    struct search s = {2, 0, 1 << 28, 0, pair(2, 0), pair(0, 0), pair(0, 0)};
    clear();
    put(u, 0, 0, 8);
    put(luma, 3, 0, 16);
    best("tie at luma", s, 2, 0, 16);
    put(luma, 3, 0, 15);
    put(luma, 8, 0, 1);
    best("less at luma", s, 0, 0, 23);
}

void evaluate_runs_tests(void) {
    luma_column();
    tie_at_luma();
}
