/* The pass on a small frame pair: a texture that moves by (2,2), predictors that say (0,0). Every block that can see it there finds it; the first
 * block inside behind a moved one looks for the samples of another place, and doesn't. Refused input leaves all that is lent. */
#include "best.h"
#include "cases.h"
#include "expect.h"

enum { SIDE = 48, HALF = SIDE / 2, GRID = 6, BLOCKS = GRID * GRID, INSIDE = GRID - 1, WORDS = 12, MOTION = 2 };

static uint8_t luma[SIDE * SIDE], u[HALF * HALF], v[HALF * HALF];
static uint8_t next_luma[SIDE * SIDE], next_u[HALF * HALF], next_v[HALF * HALF];
static int32_t order[2 * BLOCKS], vectors[3 * BLOCKS], records[WORDS * BLOCKS], indices[BLOCKS], bests[NUMBERS * BLOCKS],
    output[2 * BLOCKS];

static void fill(uint8_t *plane, int side, int which, int motion) {
    for (int y = 0; y < side; y++)
        for (int x = 0; x < side; x++) plane[y * side + x] = texture(x - motion, y - motion, which);
}

static struct hirupango_settings settings(void) {
    struct hirupango_place full = {0, SIDE, SIDE, SIDE, 1}, half = {0, HALF, HALF, HALF, 1};
    struct hirupango_settings s = {{true, 3}, {0, 100}, {false, false, 1}, {8, 8}, {GRID, GRID}, {8, 8}, {1, 1}, {full, half, half}};
    return s;
}

static void start(void) {
    fill(luma, SIDE, 0, 0);
    fill(u, HALF, 1, 0);
    fill(v, HALF, 2, 0);
    fill(next_luma, SIDE, 0, MOTION);
    fill(next_u, HALF, 1, MOTION / 2);
    fill(next_v, HALF, 2, MOTION / 2);
    inside_first(order, GRID);
    for (int i = 0; i < BLOCKS; i++) {
        vectors[3 * i] = vectors[3 * i + 1] = 0;
        vectors[3 * i + 2] = 1000;
    }
    mark(output, 2 * BLOCKS);
}

/* The three calls, each a case of its own. Its inputs are the ones lent here, and what makes it another than those before. */
static void plan(uint32_t number, const char *what, struct hirupango_settings s) {
    new_case("plan", what);
    given(order, sizeof order);
    given_number(s.search.search_param);
    uint32_t answered = hirupango_plan(s, order, 2 * BLOCKS, vectors, 3 * BLOCKS, luma, sizeof luma, u, sizeof u, v, sizeof v, records,
                                       WORDS * BLOCKS, indices, BLOCKS);
    expect(answered == number, "number", answered, number);
}

static void evaluate(uint32_t number, const char *what, struct hirupango_settings s) {
    new_case("evaluate", what);
    given(records, sizeof records);
    given_number(s.search.search_param);
    struct hirupango_request q = {false, s.block, s.shift, s.search.search_param, 0, 1, {s.planes.luma, s.planes.u, s.planes.v},
                                  {s.planes.luma, s.planes.u, s.planes.v}};
    uint32_t answered = hirupango_evaluate(q, records, WORDS * BLOCKS, luma, sizeof luma, u, sizeof u, v, sizeof v, next_luma, sizeof next_luma,
                                           next_u, sizeof next_u, next_v, sizeof next_v, bests, NUMBERS * BLOCKS);
    expect(answered == number, "number", answered, number);
}

static void finish(uint32_t number, const char *what) {
    new_case("finish", what);
    given(bests, sizeof bests);
    uint32_t answered = hirupango_finish(GRID, GRID, indices, BLOCKS, bests, NUMBERS * BLOCKS, 67, true, vectors, 3 * BLOCKS, output, 2 * BLOCKS);
    expect(answered == number, "number", answered, number);
}

static void the_pass(void) {
    struct hirupango_settings s = settings();
    start();
    plan(0, "frame pair", s);
    evaluate(0, "frame pair", s);
    for (int i = 0; i < BLOCKS; i++) expect(bests[NUMBERS * i + OUTSIDE] == 0, "a best has samples outside the data", i, bests[NUMBERS * i + OUTSIDE]);
    finish(0, "frame pair");
    for (int y = 0; y < INSIDE; y++)
        for (int x = 0; x < INSIDE; x++) {
            const int32_t *vector = vectors + 3 * (y * GRID + x);
            expect(vector[0] == MOTION && vector[1] == MOTION && vector[2] == 0, "the motion is found", x, y);
            expect(output[2 * (y * GRID + x)] == MOTION * 65536 + MOTION, "its output word", x, y);
        }
}

/* A block of the last column, which is moved, and then one inside: that one reads the first one's own place. */
static void stale(void) {
    struct hirupango_settings s = settings();
    start();
    order[0] = INSIDE;
    order[1] = 0;
    order[2] = order[3] = 1;
    plan(0, "frame pair, a block inside behind a moved one", s);
    expect(records[WORDS] == 8 * INSIDE, "full is the moved block's origin", records[WORDS], 8 * INSIDE);
    expect(records[WORDS + 4] == 8 * SIDE + 8, "the average's origin is its own", records[WORDS + 4], 8 * SIDE + 8);
}

/* Each step refused: its number, and nothing written. */
static void refused(void) {
    struct hirupango_settings s = settings(), wide = s;
    wide.search.search_param = 4;
    start();
    mark(records, WORDS * BLOCKS);
    mark(indices, BLOCKS);
    plan(1, "frame pair, refused", wide);
    expect(marked(records, 0, WORDS * BLOCKS), "the records have changed", 1, 0);
    expect(marked(indices, 0, BLOCKS), "the indices have changed", 1, 0);
    plan(0, "frame pair, again", s);
    mark(bests, NUMBERS * BLOCKS);
    evaluate(1, "frame pair, refused", wide);
    expect(marked(bests, 0, NUMBERS * BLOCKS), "the bests have changed", 1, 0);
    evaluate(0, "frame pair, again", s);
    bests[NUMBERS * (BLOCKS - 1)] = 32768;
    mark(vectors, 3 * BLOCKS);
    finish(7, "frame pair, refused");
    expect(marked(vectors, 0, 3 * BLOCKS), "the vectors have changed", 1, 0);
    expect(marked(output, 0, 2 * BLOCKS), "the output has changed", 1, 0);
}

void frame_pair_tests(void) {
    the_pass();
    stale();
    refused();
}
