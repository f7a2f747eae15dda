/* Planning's refusals, each way into one: the case one step outside with its number, and its neighbour inside with 0. Then
 * the run of three bad blocks that the paper names. */
#include "cases.h"
#include "expect.h"
#include "unread.h"

enum { MOST = 4100, WORDS = 12, GOOD = 10, POOR = 1000 };

static struct hirupango_settings s;
static int32_t order[2 * MOST], vectors[3 * MOST], order_before[2 * MOST], vectors_before[3 * MOST];
static int32_t records[WORDS * MOST], indices[MOST];
static size_t order_len, vectors_len, luma_len, u_len, v_len, records_len, indices_len;

/* ---- making a case */
static void fit_lengths(void) {
    luma_len = held(s.planes.luma);
    u_len = held(s.planes.u);
    v_len = held(s.planes.v);
}

static void frame(int32_t width, int32_t height) {
    s.planes.luma = tight(width, height);
    s.planes.u = s.planes.v = tight(s.shift.x > 0 ? width >> 1 : width, s.shift.y > 0 ? height >> 1 : height);
    fit_lengths();
}

/* Order, vectors and room for a grid, its blocks row by row, none of them bad. */
static void grid(int32_t nx, int32_t ny) {
    size_t n = (size_t)nx * (size_t)ny;
    s.grid = sides(nx, ny);
    for (size_t i = 0; i < n; i++) {
        order[2 * i] = (int32_t)(i % (size_t)nx);
        order[2 * i + 1] = (int32_t)(i / (size_t)nx);
        vectors[3 * i] = vectors[3 * i + 1] = 0;
        vectors[3 * i + 2] = GOOD;
    }
    order_len = 2 * n;
    vectors_len = 3 * n;
    records_len = WORDS * n;
    indices_len = n;
}

/* Four blocks of 8x8 in a frame of 64x64. */
static void base(void) {
    s.search.exhaustive = true;
    s.search.search_param = 3;
    s.weights.lambda = 400;
    s.weights.bad_sad = 100;
    s.level.smallest = s.level.need_luma = false;
    s.level.pel = 2;
    s.block = s.step = sides(8, 8);
    s.shift = sides(1, 1);
    frame(64, 64);
    grid(2, 2);
}

static void vector(size_t index, int32_t x, int32_t y, int32_t sad) {
    vectors[3 * index] = x;
    vectors[3 * index + 1] = y;
    vectors[3 * index + 2] = sad;
}

/* ---- asking */
/* On 0 an index and a record for each entry of the order: its SAD is the block's. */
static int written(size_t n) {
    for (size_t i = 0; i < n; i++) {
        int32_t index = order[2 * i + 1] * s.grid.x + order[2 * i];
        if (indices[i] != index || records[WORDS * i + 10] != vectors[3 * index + 2]) return 0;
    }
    return 1;
}

static void begin(const char *what) {
    const size_t lengths[] = {order_len, vectors_len, luma_len, u_len, v_len, records_len, indices_len};
    new_case("plan", what);
    given(&s, sizeof s);
    given(lengths, sizeof lengths);
    given(order, order_len * sizeof *order);
    given(vectors, vectors_len * sizeof *vectors);
}

static void asked(const char *what, uint32_t number) {
    const uint8_t *bytes = unread_bytes();
    mark(records, WORDS * MOST);
    mark(indices, MOST);
    memcpy(order_before, order, sizeof order);
    memcpy(vectors_before, vectors, sizeof vectors);
    begin(what);
    uint32_t answered = hirupango_plan(s, order, order_len, vectors, vectors_len, bytes, luma_len, bytes, u_len, bytes, v_len,
                                       records, records_len, indices, indices_len);
    size_t n = answered == 0 ? order_len / 2 : 0;
    expect(answered == number, "number", answered, number);
    expect(marked(records, WORDS * n, WORDS * MOST), "what is behind the records has changed", 1, 0);
    expect(marked(indices, n, MOST), "what is behind the indices has changed", 1, 0);
    expect(memcmp(order, order_before, sizeof order) == 0, "the order has changed", 1, 0);
    expect(memcmp(vectors, vectors_before, sizeof vectors) == 0, "the vectors have changed", 1, 0);
    if (n > 0) expect(written(n), "records or indices", 1, 0);
}

/* The base with one change, and the number that it must be given. */
#define TRY(number, change) (base(), (change), asked(#change, number))

/* ---- 1 */
static void search_and_block(void) {
    TRY(1, s.search.exhaustive = false);
    for (int32_t radius = -5; radius <= 5; radius++) TRY(radius < -3 || radius > 3, s.search.search_param = radius);
    for (int i = 0; i < 3; i++) TRY(i == 1 ? 0 : 1, s.search.search_param = ENDS[i]);
    TRY(1, s.search.search_param = INT32_MIN + 1);
    for (int32_t w = 0; w <= 33; w++)
        for (int32_t h = 0; h <= 33; h++) TRY(!is_block(w, h), s.block = sides(w, h));
    for (int i = 0; i < 3; i++) {
        TRY(1, s.block.x = ENDS[i]);
        TRY(1, s.block.y = ENDS[i]);
    }
}

static void grid_and_order(void) {
    TRY(0, grid(2, 3));
    TRY(1, grid(1, 2));
    TRY(1, grid(2, 1));
    TRY(1, grid(0, 2));
    TRY(1, grid(2, 0));
    TRY(1, s.grid = sides(-2, -2));
    TRY(1, s.grid = sides(INT32_MIN, 2));
    TRY(1, s.grid = sides(2, INT32_MIN));
    TRY(1, order_len -= 2);
    TRY(1, order_len += 2);
    TRY(1, order_len--);
    TRY(1, order_len++);
    TRY(1, order_len = 0);
    /* products that are 0 or the order's length once cut to 32 bits */
    TRY(1, (s.grid = sides(65536, 65536), order_len = 0));
    TRY(1, s.grid = sides(65536, 65536));
    TRY(1, s.grid = sides(INT32_MAX, INT32_MAX));
    TRY(1, (s.grid = sides(INT32_MAX, 4), order_len = 2));
}

/* ---- 2 */
static void long_grid(int32_t nx, int32_t ny) {
    s.step = sides(1, 1);
    frame(4096, 4096);
    grid(nx, ny);
}

static void steps_and_frame(void) {
    TRY(0, long_grid(2048, 2));
    TRY(2, long_grid(2049, 2));
    TRY(0, long_grid(2, 2048));
    TRY(2, long_grid(2, 2049));
    for (int32_t step = -1; step <= 10; step++) {
        TRY(step < 1 || step > 8 ? 2 : 0, s.step.x = step);
        TRY(step < 1 || step > 8 ? 2 : 0, s.step.y = step);
    }
    TRY(0, (s.block = sides(16, 8), s.step = sides(16, 8)));
    TRY(2, (s.block = sides(16, 8), s.step = sides(17, 8)));
    TRY(2, (s.block = sides(16, 8), s.step = sides(16, 9)));
    for (int i = 0; i < 3; i++) {
        TRY(2, s.step.x = ENDS[i]);
        TRY(2, s.step.y = ENDS[i]);
    }
    TRY(0, frame(16384, 64));
    TRY(2, frame(16385, 64));
    TRY(0, frame(64, 16384));
    TRY(2, frame(64, 16385));
    TRY(0, frame(16, 16));
    TRY(2, frame(15, 16));
    TRY(2, frame(16, 15));
    TRY(2, frame(1, 64));
    TRY(2, frame(64, 1));
    /* 8x8 blocks in a frame that ends with the third: steps of 8 fit, a fourth block does not */
    TRY(0, (frame(24, 24), grid(3, 3)));
    TRY(2, (frame(24, 24), grid(4, 3)));
    TRY(2, (frame(24, 24), grid(3, 4)));
    for (int i = 0; i < 3; i++) {
        TRY(2, s.planes.luma.width = ENDS[i]);
        TRY(2, s.planes.luma.height = ENDS[i]);
    }
}

static void pels_and_shifts(void) {
    for (int32_t pel = -1; pel <= 9; pel++) {
        TRY(is_pel(pel) ? 0 : 2, s.level.pel = pel);
        TRY(is_pel(pel) ? 0 : 2, s.planes.luma.pel = pel);
        TRY(is_pel(pel) ? 0 : 2, s.planes.u.pel = pel);
        TRY(is_pel(pel) ? 0 : 2, s.planes.v.pel = pel);
    }
    for (int i = 0; i < 3; i++) TRY(2, s.level.pel = ENDS[i]);
    for (int32_t x = -1; x <= 3; x++)
        for (int32_t y = -1; y <= 3; y++)
            TRY(are_shifts(x, y) ? 0 : 2, (s.shift = sides(x, y), frame(64, 64)));
    for (int i = 0; i < 3; i++) {
        TRY(2, s.shift.x = ENDS[i]);
        TRY(2, s.shift.y = ENDS[i]);
    }
}

/* One plane after the other. */
static struct hirupango_place *plane(int at) {
    return at == 0 ? &s.planes.luma : at == 1 ? &s.planes.u : &s.planes.v;
}

static void chroma_sides(void) {
    TRY(0, frame(65, 65));
    for (int at = 1; at <= 2; at++)
        for (int32_t off = -1; off <= 1; off++) {
            TRY(off == 0 ? 0 : 2, (plane(at)->pitch = 40, plane(at)->width += off, fit_lengths()));
            TRY(off == 0 ? 0 : 2, (plane(at)->height += off, fit_lengths()));
            TRY(off == 0 ? 0 : 2, (frame(65, 65), plane(at)->pitch = 40, plane(at)->width += off, fit_lengths()));
        }
}

static void pitches(void) {
    for (int at = 0; at <= 2; at++) {
        TRY(2, plane(at)->pitch = plane(at)->width - 1);
        TRY(0, (plane(at)->pitch = 65536, fit_lengths()));
        TRY(2, (plane(at)->pitch = 65537, fit_lengths()));
        TRY(2, plane(at)->pitch = 0);
        for (int i = 0; i < 3; i++) TRY(2, plane(at)->pitch = ENDS[i]);
    }
}

static void vector_limits(void) {
    TRY(2, vectors_len -= 3);
    TRY(2, vectors_len += 3);
    TRY(2, vectors_len--);
    TRY(2, vectors_len++);
    TRY(2, vectors_len = 0);
    const int32_t inside[] = {-32768, -32767, 32766, 32767}, outside[] = {INT32_MIN, -32769, 32768, INT32_MAX};
    for (size_t index = 0; index < 4; index++)
        for (int i = 0; i < 4; i++) {
            TRY(0, vector(index, inside[i], 0, GOOD));
            TRY(0, vector(index, 0, inside[i], GOOD));
            TRY(2, vector(index, outside[i], 0, GOOD));
            TRY(2, vector(index, 0, outside[i], GOOD));
            /* also of a block that the order never names */
            TRY(2, (vector(index, 0, outside[i], GOOD), memset(order, 0, 8 * sizeof *order)));
        }
    TRY(0, memset(order, 0, 8 * sizeof *order));
    TRY(0, vector(1, 0, 0, INT32_MIN));
    TRY(0, vector(1, 0, 0, INT32_MAX));
}

/* ---- 3 */
static size_t *length(int at) {
    return at == 0 ? &luma_len : at == 1 ? &u_len : &v_len;
}

static void lengths(void) {
    const size_t most = ((size_t)1 << 30) - 1, whole = ~(size_t)0;
    for (int at = 0; at <= 2; at++) {
        TRY(3, *length(at) -= 1);
        TRY(0, *length(at) += 1);
        TRY(3, *length(at) = 0);
        TRY(0, *length(at) = most);
        TRY(3, *length(at) = most + 1);
        TRY(0, (plane(at)->base = 7, *length(at) += 7));
        TRY(3, (plane(at)->base = 7, *length(at) += 6));
        TRY(3, plane(at)->base = *length(at));
        TRY(3, plane(at)->base = *length(at) + 1);
        TRY(0, (plane(at)->base = most - *length(at), *length(at) = most));
        TRY(3, (plane(at)->base = most - *length(at) + 1, *length(at) = most));
        /* sums that are small once they wrap */
        TRY(3, plane(at)->base = whole);
        TRY(3, plane(at)->base = whole - *length(at) + 1);
        TRY(3, plane(at)->base = (size_t)1 << 63);
        TRY(3, plane(at)->base = ((size_t)1 << 63) - 1);
        TRY(3, plane(at)->base = (size_t)1 << 32);
    }
}

/* ---- 4 */
static void entries(void) {
    for (size_t at = 0; at < 8; at++) {
        TRY(0, order[at] = 0);
        TRY(0, order[at] = 1);
        /* for the first entry this would be the place of (0,1), were it not asked about */
        TRY(4, order[at] = 2);
        for (int i = 0; i < 3; i++) TRY(4, order[at] = ENDS[i]);
    }
    TRY(0, (grid(3, 2), order[0] = 2));
    TRY(4, (grid(3, 2), order[1] = 2));
    TRY(0, (grid(2, 3), order[1] = 2));
    TRY(4, (grid(2, 3), order[0] = 2));
}

/* ---- 5 */
static void room(void) {
    TRY(5, records_len -= 1);
    TRY(0, records_len += 1);
    TRY(5, records_len = 0);
    TRY(5, indices_len -= 1);
    TRY(0, indices_len += 1);
    TRY(5, indices_len = 0);
    base();
    const uint8_t *bytes = unread_bytes();
    new_case("plan", "null");
    uint32_t number = hirupango_plan(s, order, order_len, vectors, vectors_len, bytes, luma_len, bytes, u_len, bytes, v_len, NULL, 0, NULL, 0);
    expect(number == 5, "number", number, 5);
}

/* ---- 6 */
/* 4x4 blocks at the smallest level: the rim's twelve are negative, the four inside are plain. The first of those comes tenth. */
static void tenth(int32_t lambda) {
    static const uint8_t rim[12] = {0, 1, 2, 3, 4, 7, 8, 11, 12, 13, 14, 15}, inside[4] = {5, 6, 9, 10};
    grid(4, 4);
    s.level.smallest = true;
    s.weights.lambda = lambda;
    for (size_t i = 0; i < 16; i++) {
        int32_t index = i < 9 ? rim[i] : i == 9 ? inside[0] : i < 13 ? rim[i - 1] : inside[i - 12];
        order[2 * i] = index % 4;
        order[2 * i + 1] = index / 4;
    }
}

static void never_inside(void) {
    tenth(INT32_MAX);
    for (size_t i = 0; i < 32; i++) order[i] = 0;
}

static void lambdas(void) {
    const int32_t limit = 1 << 30;
    TRY(0, s.weights.lambda = limit - 1);
    TRY(6, s.weights.lambda = limit);
    TRY(0, s.weights.lambda = -limit);
    TRY(6, s.weights.lambda = -limit - 1);
    TRY(6, s.weights.lambda = INT32_MAX);
    TRY(6, s.weights.lambda = INT32_MIN);
    TRY(6, (vector(3, 0, 0, POOR), s.weights.lambda = limit));
    TRY(0, (s.level.smallest = true, s.weights.lambda = INT32_MAX));
    TRY(0, (s.level.smallest = true, s.weights.lambda = INT32_MIN));
    TRY(0, tenth(limit - 1));
    TRY(6, tenth(limit));
    TRY(6, tenth(-limit - 1));
    TRY(0, never_inside());
    TRY(0, (s.weights.bad_sad = INT32_MIN));
    TRY(0, (s.weights.bad_sad = INT32_MAX));
}

/* Pel 4, and the last block begins at 8192 along one axis, with one pixel behind it. A predictor of 2 moves it by one. */
static void far(int down, int32_t predictor, int32_t sad) {
    s.level.pel = 4;
    s.shift = sides(0, 0);
    s.block = s.step = sides(16, 16);
    frame(down ? 64 : 8209, down ? 8209 : 64);
    grid(down ? 2 : 513, down ? 513 : 2);
    vector(down ? 512 * 2 : 512, down ? 0 : predictor, down ? predictor : 0, sad);
}

/* Pel 4, and the first block has room on the right and below as far as a frame goes. */
static void wide(int32_t radius, int32_t x, int32_t y, int32_t sad) {
    s.level.pel = 4;
    s.search.search_param = radius;
    frame(16384, 16384);
    vector(0, x, y, sad);
}

static void positions_and_windows(void) {
    for (int down = 0; down <= 1; down++) {
        TRY(6, far(down, 0, POOR));
        TRY(0, far(down, 2, POOR));
        TRY(0, far(down, 0, GOOD));
        TRY(0, (far(down, 0, POOR), s.level.pel = 2));
    }
    for (int32_t radius = 0; radius <= 3; radius++) {
        TRY(0, wide(radius, 32767 - radius, 0, POOR));
        TRY(0, wide(radius, 0, 32767 - radius, POOR));
        TRY(0, wide(radius, 32767, 32767, GOOD));
        if (radius == 0) continue;
        TRY(6, wide(radius, 32768 - radius, 0, POOR));
        TRY(6, wide(-radius, 0, 32768 - radius, POOR));
        TRY(0, (wide(radius, 32768 - radius, 0, POOR), s.level.pel = 2));
    }
}

/* ---- several at once: the lowest is given */
static void spoil(uint32_t number) {
    if (number == 1) s.search.search_param = 4;
    if (number == 2) s.level.pel = 3;
    if (number == 3) luma_len--;
    if (number == 4) order[7] = 2;
    if (number == 5) indices_len--;
    if (number == 6) s.weights.lambda = INT32_MAX;
}

static void several(void) {
    for (uint32_t low = 1; low <= 6; low++) {
        for (uint32_t high = low + 1; high <= 6; high++) TRY(low, (spoil(low), spoil(high)));
        base();
        for (uint32_t number = low; number <= 6; number++) spoil(number);
        asked("all from one number on", low);
    }
}

/* ---- a bad block out of its limits, then two inside: the second block's samples are those at the first one's origin, the
 * third block reads its own */
static void run_of_three(void) {
    static const int32_t places[] = {1, 1, 0, 0, 1, 0, 0, 1}, full[] = {8 * 64 + 56, 8 * 64 + 8, 8},
                         chroma[] = {4 * 32 + 28, 4 * 32 + 4, 4};
    base();
    memcpy(order, places, sizeof places);
    vector(3, -200, 0, POOR);
    vector(0, 0, 0, POOR);
    vector(1, 0, 0, POOR);
    asked("run of three", 0);
    for (int i = 0; i < 3; i++) {
        const int32_t *record = records + WORDS * i;
        expect(record[0] == full[i], "full", record[0], full[i]);
        expect(record[2] == chroma[i], "u", record[2], chroma[i]);
        expect(record[3] == chroma[i], "v", record[3], chroma[i]);
    }
}

void plan_refusals_tests(void) {
    search_and_block();
    grid_and_order();
    steps_and_frame();
    pels_and_shifts();
    chroma_sides();
    pitches();
    vector_limits();
    lengths();
    entries();
    room();
    lambdas();
    positions_and_windows();
    several();
    run_of_three();
}
