/* Evaluating's refusals, each way into one: the case one step outside with its number, and its neighbour inside with 0. */
#include "best.h"
#include "cases.h"
#include "expect.h"
#include "unread.h"

enum { MOST = 12, WORDS = 12, PLANES = 6, BAD = 1, NEGATIVE = 2 };
enum { POSITION = 5, CHROMA_POSITION = 6, PREDICTOR = 7, WINDOW_X = 8, WINDOW_Y = 9, SAD = 10, LAMBDA = 11 };

static struct hirupango_request q;
static int32_t records[WORDS * MOST], before[WORDS * MOST], bests[NUMBERS * MOST];
static size_t records_len, lengths[PLANES], bests_len;

/* ---- making a case */
/* The six planes: the source's luma, u and v, then the reference's. */
static struct hirupango_place *plane(int at) {
    struct hirupango_place *planes[PLANES] = {&q.source.luma,    &q.source.u,    &q.source.v,
                                              &q.reference.luma, &q.reference.u, &q.reference.v};
    return planes[at];
}

static void fit_lengths(void) {
    for (int at = 0; at < PLANES; at++) lengths[at] = held(*plane(at));
}

static void frame(int32_t width, int32_t height) {
    for (int at = 0; at < PLANES; at++) {
        int32_t w = at % 3 && q.shift.x > 0 ? width >> 1 : width, h = at % 3 && q.shift.y > 0 ? height >> 1 : height;
        *plane(at) = tight(w, h);
    }
    fit_lengths();
}

static void window(size_t at, int32_t least_x, int32_t greatest_x, int32_t least_y, int32_t greatest_y) {
    records[WORDS * at + WINDOW_X] = pair(least_x, greatest_x);
    records[WORDS * at + WINDOW_Y] = pair(least_y, greatest_y);
}

static void flags(size_t at, int32_t flags) {
    records[WORDS * at + LAMBDA] = -256 * 4 + flags;
}

/* A record to be searched around (5,-2), uncut. */
static void searched(size_t at, int32_t radius) {
    static const int32_t record[WORDS] = {0, INT32_MIN, 0, 0, 0};
    memcpy(records + WORDS * at, record, sizeof record);
    records[WORDS * at + PREDICTOR] = pair(5, -2);
    window(at, 5 - radius, 5 + radius, -2 - radius, -2 + radius);
    flags(at, BAD);
}

static void radius(int32_t search_param) {
    q.search_param = search_param;
    if (-3 <= search_param && search_param <= 3) searched(1, search_param < 0 ? -search_param : search_param);
}

/* Two records, for blocks of 8x8 in a frame of 64x64 at pel 2: the first is not bad, and its words are those of the paper's plan file;
 * the second is searched with radius 1. All samples are 0, and lambda is below 0: so a candidate costs the less the farther it lies
 * from the predictor, and the best is the farthest of the window, the first of those, with SAD and average 0. */
static void base(void) {
    static const int32_t good[WORDS] = {INT32_MIN, INT32_MIN, INT32_MIN, INT32_MIN, INT32_MIN, 0, 0, -262141, -65536, -65536, 10, 0};
    q.satd = false;
    q.block = sides(8, 8);
    q.shift = sides(1, 1);
    q.search_param = 1;
    q.pnew = 0;
    q.pel = 2;
    frame(64, 64);
    memset(records, 0, sizeof records);
    memcpy(records, good, sizeof good);
    searched(1, 1);
    records_len = 2 * WORDS;
    bests_len = 2 * NUMBERS;
}

/* ---- asking */
static int32_t first_of(int32_t word) {
    return ((word & 65535) ^ 32768) - 32768;
}

static int32_t second_of(int32_t word) {
    return first_of((int32_t)((uint32_t)word >> 16));
}

/* Where a plane's sample at (x,y) is in its bytes: what pel leaves of x and y says in which subplane. */
static int64_t place_of(struct hirupango_place p, int32_t x, int32_t y) {
    int64_t left_x = ((x % p.pel) + p.pel) % p.pel, left_y = ((y % p.pel) + p.pel) % p.pel;
    int64_t column = (x - left_x) / p.pel, row = (y - left_y) / p.pel;
    return (int64_t)p.base + row * p.pitch + column + (left_x + p.pel * left_y) * p.pitch * p.height;
}

/* Of a block whose first sample is at a place, how many samples lie outside the bytes of a plane, looked at one by one. */
static int32_t absent(int at, int64_t first, int32_t width, int32_t height) {
    int32_t count = 0;
    for (int32_t y = 0; y < height; y++)
        for (int32_t x = 0; x < width; x++) {
            int64_t sample = first + (int64_t)y * plane(at)->pitch + x;
            if (sample < 0 || sample >= (int64_t)lengths[at]) count++;
        }
    return count;
}

/* The fifth number of a record's best: of the reference's planes, at the vector (x,y). V is read from U's place on. */
static int32_t outside(const int32_t *record, int32_t x, int32_t y) {
    int32_t last = record[LAMBDA], half = last & NEGATIVE ? 2 : 1, shift = q.shift.x;
    if (!(last & BAD)) return -1;
    int64_t luma = place_of(q.reference.luma, first_of(record[POSITION]) + x, second_of(record[POSITION]) + y);
    int32_t count = absent(3, luma, q.block.x / half, q.block.y / half);
    if (last & NEGATIVE) return count;
    int64_t u = place_of(q.reference.u, first_of(record[CHROMA_POSITION]) + (x >> shift), second_of(record[CHROMA_POSITION]) + (y >> shift));
    return count + absent(4, u, q.block.x >> shift, q.block.y >> shift) + absent(5, u, q.block.x >> shift, q.block.y >> shift);
}

/* Whether a best is that of the record, where all samples are 0 and a candidate costs minus its squared distance. */
static int is_best(const int32_t *record, const int32_t *best) {
    int32_t px = first_of(record[PREDICTOR]), py = second_of(record[PREDICTOR]), x = px, y = py, far = 0;
    int bad = record[LAMBDA] & BAD;
    if (bad && first_of(record[WINDOW_X]) <= second_of(record[WINDOW_X]))
        for (int32_t vy = first_of(record[WINDOW_Y]); vy <= second_of(record[WINDOW_Y]); vy++)
            for (int32_t vx = first_of(record[WINDOW_X]); vx <= second_of(record[WINDOW_X]); vx++) {
                int32_t distance = (px - vx) * (px - vx) + (py - vy) * (py - vy);
                if (distance <= far) continue;
                far = distance;
                x = vx;
                y = vy;
            }
    return best[0] == x && best[1] == y && best[2] == (bad ? 0 : record[SAD]) && best[3] == 0 && best[OUTSIDE] == outside(record, x, y);
}

static void begin(const char *what) {
    new_case("evaluate", what);
    given(&q, sizeof q);
    given(lengths, sizeof lengths);
    given_number((int64_t)bests_len);
    given(records, records_len * sizeof *records);
}

static void asked(const char *what, uint32_t number) {
    const uint8_t *bytes = zero_bytes();
    mark(bests, NUMBERS * MOST);
    memcpy(before, records, sizeof records);
    begin(what);
    uint32_t answered = hirupango_evaluate(q, records, records_len, bytes, lengths[0], bytes, lengths[1], bytes, lengths[2], bytes,
                                           lengths[3], bytes, lengths[4], bytes, lengths[5], bests, bests_len);
    size_t n = answered == 0 ? records_len / WORDS : 0;
    expect(answered == number, "number", answered, number);
    expect(marked(bests, NUMBERS * n, NUMBERS * MOST), "what is behind the bests has changed", 1, 0);
    expect(memcmp(records, before, sizeof records) == 0, "the records have changed", 1, 0);
    for (size_t i = 0; i < n; i++) expect(is_best(records + WORDS * i, bests + NUMBERS * i), "a record's best", (long)i, bests[NUMBERS * i]);
}

/* The base with one change, and the number that it must be given. */
#define TRY(number, change) (base(), (change), asked(#change, number))

/* ---- 1 */
static void block_and_radius(void) {
    for (int32_t w = 0; w <= 33; w++)
        for (int32_t h = 0; h <= 33; h++) TRY(!is_block(w, h), q.block = sides(w, h));
    for (int i = 0; i < 3; i++) {
        TRY(1, q.block.x = ENDS[i]);
        TRY(1, q.block.y = ENDS[i]);
        TRY(i == 1 ? 0 : 1, radius(ENDS[i]));
    }
    for (int32_t param = -5; param <= 5; param++) TRY(param < -3 || param > 3, radius(param));
    TRY(1, radius(INT32_MIN + 1));
    TRY(0, q.satd = true);
    for (int i = 0; i < 3; i++) TRY(0, q.pnew = ENDS[i]);
}

/* ---- 2 */
static void pel_of_all(int32_t pel) {
    q.pel = pel;
    for (int at = 0; at < PLANES; at++) plane(at)->pel = pel;
}

static void pels_and_shifts(void) {
    for (int32_t pel = -1; pel <= 9; pel++) {
        TRY(is_pel(pel) ? 0 : 2, pel_of_all(pel));
        TRY(pel == 2 ? 0 : 2, q.pel = pel);
        for (int at = 0; at < PLANES; at++) TRY((at < 3 ? is_pel(pel) : pel == 2) ? 0 : 2, plane(at)->pel = pel);
    }
    for (int i = 0; i < 3; i++) TRY(2, pel_of_all(ENDS[i]));
    for (int32_t x = -1; x <= 3; x++)
        for (int32_t y = -1; y <= 3; y++)
            TRY(are_shifts(x, y) ? 0 : 2, (q.shift = sides(x, y), frame(64, 64)));
    for (int i = 0; i < 3; i++) {
        TRY(2, q.shift.x = ENDS[i]);
        TRY(2, q.shift.y = ENDS[i]);
    }
}

static void frame_sides(void) {
    TRY(0, frame(2, 2));
    TRY(0, frame(65, 65));
    TRY(0, frame(16384, 64));
    TRY(2, frame(16385, 64));
    TRY(0, frame(64, 16384));
    TRY(2, frame(64, 16385));
    /* chroma as wide and as high as luma, so that its sides are no other reason */
    for (int32_t side = 0; side <= 3; side++) {
        TRY(side < 2 ? 2 : 0, (q.shift = sides(0, 0), frame(side, 64)));
        TRY(side < 2 ? 2 : 0, (q.shift = sides(0, 0), frame(64, side)));
    }
    for (int i = 0; i < 3; i++) {
        TRY(2, q.source.luma.width = q.reference.luma.width = ENDS[i]);
        TRY(2, q.source.luma.height = q.reference.luma.height = ENDS[i]);
    }
}

/* Makes a plane wider and higher. */
static void resize(int at, int32_t x, int32_t y) {
    plane(at)->pitch = 80;
    plane(at)->width += x;
    plane(at)->height += y;
    fit_lengths();
}

static void sides_of_planes(void) {
    for (int32_t off = -1; off <= 1; off++) {
        uint32_t number = off == 0 ? 0 : 2;
        /* chroma's in the source, and in the reference with it */
        for (int at = 1; at <= 2; at++) {
            TRY(number, (resize(at, off, 0), resize(at + 3, off, 0)));
            TRY(number, (resize(at, 0, off), resize(at + 3, 0, off)));
            TRY(number, (frame(65, 65), resize(at, off, 0), resize(at + 3, off, 0)));
        }
        for (int at = 3; at < PLANES; at++) {
            TRY(number, resize(at, off, 0));
            TRY(number, resize(at, 0, off));
        }
    }
}

static void pitches(void) {
    for (int at = 0; at < PLANES; at++) {
        TRY(2, plane(at)->pitch = plane(at)->width - 1);
        TRY(0, (plane(at)->pitch = 65536, fit_lengths()));
        TRY(2, (plane(at)->pitch = 65537, fit_lengths()));
        TRY(2, plane(at)->pitch = 0);
        for (int i = 0; i < 3; i++) TRY(2, plane(at)->pitch = ENDS[i]);
    }
}

/* ---- 3 */
static void lengths_of_planes(void) {
    const size_t most = ((size_t)1 << 30) - 1, whole = ~(size_t)0;
    for (int at = 0; at < PLANES; at++) {
        TRY(3, lengths[at] -= 1);
        TRY(0, lengths[at] += 1);
        TRY(3, lengths[at] = 0);
        TRY(0, lengths[at] = most);
        TRY(3, lengths[at] = most + 1);
        TRY(0, (plane(at)->base = 7, lengths[at] += 7));
        TRY(3, (plane(at)->base = 7, lengths[at] += 6));
        TRY(3, plane(at)->base = lengths[at]);
        TRY(3, plane(at)->base = lengths[at] + 1);
        TRY(0, (plane(at)->base = most - lengths[at], lengths[at] = most));
        TRY(3, (plane(at)->base = most - lengths[at] + 1, lengths[at] = most));
        /* sums that are small once they wrap */
        TRY(3, plane(at)->base = whole);
        TRY(3, plane(at)->base = whole - lengths[at] + 1);
        TRY(3, plane(at)->base = (size_t)1 << 63);
        TRY(3, plane(at)->base = ((size_t)1 << 63) - 1);
        TRY(3, plane(at)->base = (size_t)1 << 32);
    }
}

/* ---- 5 */
static void room(void) {
    for (size_t more = 1; more < WORDS; more++) {
        TRY(5, (records_len += more, bests_len += NUMBERS));
        TRY(5, records_len -= more);
    }
    TRY(0, records_len -= WORDS);
    TRY(5, records_len += WORDS);
    TRY(0, (records_len += WORDS, bests_len += NUMBERS));
    TRY(5, (records_len += WORDS, bests_len += NUMBERS - 1));
    TRY(5, bests_len -= 1);
    TRY(0, bests_len += 1);
    TRY(5, bests_len = 4 * 2);
    TRY(0, (records_len = WORDS, bests_len = NUMBERS));
    TRY(5, (records_len = WORDS, bests_len = 4));
    TRY(5, bests_len = 0);
    TRY(0, records_len = 0);
    TRY(0, records_len = bests_len = 0);
    base();
    const uint8_t *bytes = zero_bytes();
    new_case("evaluate", "null");
    uint32_t number = hirupango_evaluate(q, NULL, 0, bytes, lengths[0], bytes, lengths[1], bytes, lengths[2], bytes, lengths[3], bytes,
                                         lengths[4], bytes, lengths[5], NULL, 0);
    expect(number == 0, "number", number, 0);
}

/* ---- 7 */
/* A window of x by y vectors from (5,-2) on; 0 and less is an empty side. */
static void opened(int32_t x, int32_t y) {
    window(1, 5, 4 + x, -2, -3 + y);
}

static void windows(void) {
    for (int32_t param = -3; param <= 3; param++) {
        int32_t most = 2 * (param < 0 ? -param : param) + 1;
        for (int32_t x = -1; x <= 9; x++)
            for (int32_t y = -1; y <= 9; y++) {
                int wide = x > 0 && y > 0 && (x > most || y > most);
                TRY(wide ? 7 : 0, (q.search_param = param, opened(x, y)));
                TRY(wide ? 7 : 0, (q.search_param = param, opened(x, y), flags(1, BAD | NEGATIVE)));
                TRY(0, (q.search_param = param, opened(x, y), flags(1, 0)));
                TRY(0, (q.search_param = param, opened(x, y), flags(1, NEGATIVE)));
            }
    }
    TRY(0, window(1, -32768, 32767, 0, -1));
    TRY(0, window(1, 0, -1, -32768, 32767));
    TRY(7, window(1, -32768, 32767, 0, 0));
    TRY(7, window(1, 0, 0, -32768, 32767));
    TRY(7, window(1, -32768, 32767, -32768, 32767));
    TRY(0, window(1, 32767, -32768, 32767, -32768));
    TRY(0, window(1, 32, -199, 32, -199));
    /* the first record's, which is not bad until its flag is set */
    TRY(0, window(0, -32768, 32767, 0, 0));
    TRY(7, (window(0, -32768, 32767, 0, 0), flags(0, BAD)));
}

/* Ten records to be searched, the last with a window of so many columns. */
static void tenth(int32_t columns) {
    for (size_t at = 0; at < 10; at++) searched(at, 1);
    window(9, 4, 3 + columns, -3, -1);
    records_len = 10 * WORDS;
    bests_len = 10 * NUMBERS;
}

static void the_tenth(void) {
    TRY(0, tenth(3));
    TRY(7, tenth(4));
    TRY(0, (tenth(4), flags(9, 0)));
    TRY(0, (tenth(4), records_len -= WORDS));
}

/* ---- several at once: the lowest is given */
static const uint32_t GIVEN[] = {1, 2, 3, 5, 7};

static void spoil(uint32_t number) {
    if (number == 1) q.search_param = 4;
    if (number == 2) q.reference.v.pel = 4;
    if (number == 3) lengths[5]--;
    if (number == 5) bests_len--;
    if (number == 7) opened(1, 10);
}

static void several(void) {
    for (int low = 0; low < 5; low++) {
        for (int high = low + 1; high < 5; high++) TRY(GIVEN[low], (spoil(GIVEN[low]), spoil(GIVEN[high])));
        base();
        for (int at = low; at < 5; at++) spoil(GIVEN[at]);
        asked("all from one number on", GIVEN[low]);
    }
    TRY(1, (records_len = 0, spoil(1)));
    TRY(2, (records_len = 0, spoil(2)));
    TRY(3, (records_len = 0, spoil(3)));
}

void evaluate_refusals_tests(void) {
    block_and_radius();
    pels_and_shifts();
    frame_sides();
    sides_of_planes();
    pitches();
    lengths_of_planes();
    room();
    windows();
    the_tenth();
    several();
}
