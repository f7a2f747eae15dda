/* The pass on level 1 of a pyramid, as a host runs it that keeps two levels in one buffer for each plane: it asks where level 1 lies in the source's
 * buffers and in the reference's, and hands these places on. Level 1 shows a texture that moves by (2,2); level 0, in front of it, is all of
 * one grey, so that planes cut from anywhere else find nothing. */
#include "best.h"
#include "cases.h"
#include "expect.h"

enum { GRID = 6, BLOCKS = GRID * GRID, INSIDE = GRID - 1, WORDS = 12, MOTION = 2, CUT = 15 };

/* Level 1 of 96x96 is 48x48, and its diagonal 67. Level 0 has PEL x PEL subplanes of FRAME rows each, and level 1 begins behind the last of them. Chroma has
 * half as many rows, half as wide. */
enum { FRAME = 96, PEL = 2, SIDE = 48, DIAGONAL = 67, PITCH = 100, FINEST = PEL * PEL * FRAME, ROWS = FINEST + SIDE, GREY = 128 };

struct pyramid {
    uint8_t luma[ROWS * PITCH], u[ROWS / 2 * (PITCH / 2)], v[ROWS / 2 * (PITCH / 2)];
};

struct level {
    struct hirupango_place luma, u, v;
};

static struct pyramid source, reference;
static int32_t order[2 * BLOCKS], vectors[3 * BLOCKS], records[WORDS * BLOCKS], indices[BLOCKS], bests[NUMBERS * BLOCKS],
    output[2 * BLOCKS];

/* ---- the pyramids */
static void draw(uint8_t *level, int side, int pitch, int plane, int motion) {
    for (int y = 0; y < side; y++)
        for (int x = 0; x < side; x++) level[y * pitch + x] = texture(x - motion, y - motion, plane);
}

static void build(struct pyramid *p, int motion) {
    memset(p, GREY, sizeof *p);
    draw(p->luma + FINEST * PITCH, SIDE, PITCH, 0, motion);
    draw(p->u + FINEST / 2 * (PITCH / 2), SIDE / 2, PITCH / 2, 1, motion / 2);
    draw(p->v + FINEST / 2 * (PITCH / 2), SIDE / 2, PITCH / 2, 2, motion / 2);
}

/* ---- the four calls, each a case of its own */
static struct hirupango_place place(const int32_t *numbers) {
    struct hirupango_place made = {(size_t)numbers[0], numbers[1], numbers[2], numbers[3], numbers[4]};
    return made;
}

static struct level cut(const char *what, const struct pyramid *p) {
    struct hirupango_super_frame frame = {{FRAME, FRAME}, {1, 1}, PEL, 1, {PITCH, PITCH / 2, PITCH / 2}, false, {0, 0, 0}};
    int32_t planes[CUT] = {0};
    new_case("level", what);
    given(p, sizeof *p);
    uint32_t number = hirupango_level(frame, p->luma, sizeof p->luma, p->u, sizeof p->u, p->v, sizeof p->v, NULL, 0, NULL, 0, NULL, 0,
                                      planes, CUT);
    expect(number == 0, "number", number, 0);
    struct level level = {place(planes), place(planes + 5), place(planes + 10)};
    expect(level.luma.base == FINEST * PITCH, "level 1 lies behind the subplanes", (long)level.luma.base, FINEST * PITCH);
    expect(level.u.base == FINEST * PITCH / 4 && level.v.base == FINEST * PITCH / 4, "chroma's too", (long)level.u.base, FINEST * PITCH / 4);
    expect(level.luma.width == SIDE && level.luma.height == SIDE, "its sides are half the frame's", level.luma.width, SIDE);
    expect(level.luma.pel == 1, "its pel is 1", level.luma.pel, 1);
    return level;
}

static void plan(struct level of) {
    struct hirupango_settings s = {{true, 3}, {0, 100}, {false, false, of.luma.pel}, {8, 8}, {GRID, GRID}, {8, 8}, {1, 1}, {of.luma, of.u, of.v}};
    const struct pyramid *p = &source;
    new_case("plan", "level 1");
    given(order, sizeof order);
    given_number((int64_t)of.luma.base);
    uint32_t number = hirupango_plan(s, order, 2 * BLOCKS, vectors, 3 * BLOCKS, p->luma, sizeof p->luma, p->u, sizeof p->u, p->v,
                                     sizeof p->v, records, WORDS * BLOCKS, indices, BLOCKS);
    expect(number == 0, "number", number, 0);
}

static void evaluate(struct level from, struct level to) {
    struct hirupango_request q = {false, {8, 8}, {1, 1}, 3, 0, from.luma.pel, {from.luma, from.u, from.v}, {to.luma, to.u, to.v}};
    const struct pyramid *p = &source, *next = &reference;
    new_case("evaluate", "level 1");
    given(records, sizeof records);
    given(next, sizeof *next);
    uint32_t number = hirupango_evaluate(q, records, WORDS * BLOCKS, p->luma, sizeof p->luma, p->u, sizeof p->u, p->v, sizeof p->v,
                                         next->luma, sizeof next->luma, next->u, sizeof next->u, next->v, sizeof next->v, bests,
                                         NUMBERS * BLOCKS);
    expect(number == 0, "number", number, 0);
    for (int i = 0; i < BLOCKS; i++) expect(bests[NUMBERS * i + OUTSIDE] == 0, "a best has samples outside the data", i, bests[NUMBERS * i + OUTSIDE]);
}

static void finish(void) {
    new_case("finish", "level 1");
    given(bests, sizeof bests);
    uint32_t number = hirupango_finish(GRID, GRID, indices, BLOCKS, bests, NUMBERS * BLOCKS, DIAGONAL, true, vectors, 3 * BLOCKS, output,
                                       2 * BLOCKS);
    expect(number == 0, "number", number, 0);
}

void level_pass_tests(void) {
    build(&source, 0);
    build(&reference, MOTION);
    inside_first(order, GRID);
    for (int i = 0; i < BLOCKS; i++) {
        vectors[3 * i] = vectors[3 * i + 1] = 0;
        vectors[3 * i + 2] = 1000;
    }
    struct level from = cut("level 1 of the source", &source), to = cut("level 1 of the reference", &reference);
    plan(from);
    evaluate(from, to);
    finish();
    for (int y = 0; y < INSIDE; y++)
        for (int x = 0; x < INSIDE; x++) {
            const int32_t *vector = vectors + 3 * (y * GRID + x);
            expect(vector[0] == MOTION && vector[1] == MOTION && vector[2] == 0, "the motion is found", x, y);
            expect(output[2 * (y * GRID + x)] == MOTION * 65536 + MOTION, "its output word", x, y);
        }
}
