/* Finishing's refusals, each way into one: the case one step outside with its number, and its neighbour inside with 0. */
#include "best.h"
#include "cases.h"
#include "expect.h"

enum { MOST = 4100, ENTRIES = 3 };

static int32_t nx, ny, diagonal, indices[ENTRIES], bests[NUMBERS * (ENTRIES + 1)], vectors[3 * MOST], output[2 * MOST];
static bool output_asked;
static size_t indices_len, bests_len, vectors_len, output_len;

/* ---- making a case */
static void grid(int32_t columns, int32_t rows) {
    size_t n = (size_t)columns * (size_t)rows;
    nx = columns;
    ny = rows;
    vectors_len = 3 * n;
    output_len = 2 * n;
}

/* Three entries, of which the last names the block that the first does. */
static void base(void) {
    static const int32_t first[] = {1, -1, 5, 9, 0, 2, 3, 6, 8, 192, -4, 4, 7, -1, -1};
    grid(2, 2);
    diagonal = 4404;
    output_asked = true;
    indices[0] = indices[2] = 3;
    indices[1] = 0;
    indices_len = ENTRIES;
    memset(bests, 0, sizeof bests);
    memcpy(bests, first, sizeof first);
    bests_len = NUMBERS * ENTRIES;
}

/* ---- asking */
/* Whether block's three numbers are those of its last entry, or as they were where none names it. */
static int stored(size_t block) {
    const int32_t *best = NULL;
    for (size_t i = 0; i < indices_len; i++)
        if (indices[i] == (int32_t)block) best = bests + NUMBERS * i;
    if (!best) return marked(vectors, 3 * block, 3 * block + 3) && marked(output, 2 * block, 2 * block + 2);
    if (memcmp(vectors + 3 * block, best, 3 * sizeof *best) != 0) return 0;
    if (!output_asked) return marked(output, 2 * block, 2 * block + 2);
    return (uint32_t)output[2 * block] == ((uint32_t)best[0] << 16) + (uint32_t)best[1] &&
           (uint32_t)output[2 * block + 1] >> 24 == ((uint32_t)best[3] & 255);
}

static void begin(const char *what) {
    const size_t lengths[] = {indices_len, bests_len, vectors_len, output_len};
    const int32_t numbers[] = {nx, ny, diagonal, output_asked};
    new_case("finish", what);
    given(numbers, sizeof numbers);
    given(lengths, sizeof lengths);
    given(indices, indices_len * sizeof *indices);
    given(bests, bests_len * sizeof *bests);
}

static void asked(const char *what, uint32_t number) {
    mark(vectors, 3 * MOST);
    mark(output, 2 * MOST);
    begin(what);
    uint32_t answered = hirupango_finish(nx, ny, indices, indices_len, bests, bests_len, diagonal, output_asked, vectors,
                                         vectors_len, output, output_len);
    expect(answered == number, "number", answered, number);
    size_t n = answered == 0 ? (size_t)nx * (size_t)ny : 0;
    expect(marked(vectors, 3 * n, 3 * MOST), "what is behind the vectors has changed", 1, 0);
    expect(marked(output, 2 * n, 2 * MOST), "what is behind the output has changed", 1, 0);
    for (size_t block = 0; block < n; block++) expect(stored(block), "what is stored of a block", (long)block, 0);
}

/* The base with one change, and the number that it must be given. */
#define TRY(number, change) (base(), (change), asked(#change, number))

/* ---- 1 and 2 */
static void grids(void) {
    TRY(0, grid(2, 2));
    TRY(1, grid(1, 4));
    TRY(1, grid(4, 1));
    TRY(1, grid(0, 2));
    TRY(1, grid(2, 0));
    TRY(1, (nx = -2, ny = -2));
    TRY(1, nx = INT32_MIN);
    TRY(1, ny = INT32_MIN);
    TRY(0, grid(2048, 2));
    TRY(2, grid(2049, 2));
    TRY(0, grid(2, 2048));
    TRY(2, grid(2, 2049));
    TRY(2, (nx = 65536, ny = 65536, vectors_len = 0));
    TRY(2, nx = INT32_MAX);
    TRY(2, ny = INT32_MAX);
    TRY(2, vectors_len -= 3);
    TRY(2, vectors_len += 3);
    TRY(2, vectors_len--);
    TRY(2, vectors_len++);
    TRY(2, vectors_len = 0);
}

static void diagonals(void) {
    for (int asks = 0; asks <= 1; asks++) {
        TRY(0, (output_asked = asks, diagonal = 1));
        TRY(0, (output_asked = asks, diagonal = INT32_MAX));
        TRY(2, (output_asked = asks, diagonal = 0));
        TRY(2, (output_asked = asks, diagonal = -1));
        TRY(2, (output_asked = asks, diagonal = INT32_MIN));
    }
}

/* ---- 4 */
static void outside_the_grid(void) {
    for (size_t at = 0; at < ENTRIES; at++) {
        for (int32_t index = 0; index < 4; index++) TRY(0, indices[at] = index);
        TRY(4, indices[at] = 4);
        for (int i = 0; i < 3; i++) TRY(4, indices[at] = ENDS[i]);
        TRY(0, (grid(2, 3), indices[at] = 5));
        TRY(4, (grid(2, 3), indices[at] = 6));
    }
}

/* ---- 5 */
/* Vectors alone: where no index names a block, nothing is stored. */
static void nothing_lent(uint32_t number, bool asks) {
    mark(vectors, 3 * MOST);
    new_case("finish", asks ? "null, output asked for" : "null");
    given_number(asks);
    uint32_t answered = hirupango_finish(2, 2, NULL, 0, NULL, 0, 1, asks, vectors, 12, NULL, 0);
    expect(answered == number, "number", answered, number);
    expect(marked(vectors, 0, 3 * MOST), "the vectors have changed", 1, 0);
}

static void room(void) {
    TRY(5, output_len--);
    TRY(0, output_len++);
    TRY(5, output_len = 0);
    TRY(0, (output_asked = false, output_len--));
    TRY(0, (output_asked = false, output_len = 0));
    TRY(5, bests_len--);
    TRY(5, bests_len++);
    TRY(5, bests_len -= NUMBERS);
    TRY(5, bests_len += NUMBERS);
    TRY(5, bests_len = 4 * ENTRIES);
    TRY(5, (indices_len = 1, bests_len = 4));
    TRY(5, bests_len = 0);
    TRY(5, (output_asked = false, bests_len++));
    TRY(5, indices_len--);
    TRY(5, indices_len = 0);
    TRY(0, indices_len = bests_len = 0);
    TRY(0, (indices_len = 2, bests_len = 2 * NUMBERS));
    nothing_lent(0, false);
    nothing_lent(5, true);
}

/* ---- 7 */
static void components(void) {
    const int32_t inside[] = {-32768, -32767, 32766, 32767}, outside[] = {INT32_MIN, -32769, 32768, INT32_MAX};
    for (int asks = 0; asks <= 1; asks++)
        for (size_t at = 0; at < ENTRIES; at++)
            for (int i = 0; i < 4; i++) {
                TRY(0, (output_asked = asks, bests[NUMBERS * at] = inside[i]));
                TRY(0, (output_asked = asks, bests[NUMBERS * at + 1] = inside[i]));
                TRY(7, (output_asked = asks, bests[NUMBERS * at] = outside[i]));
                TRY(7, (output_asked = asks, bests[NUMBERS * at + 1] = outside[i]));
                TRY(0, (output_asked = asks, bests[NUMBERS * at + 2] = outside[i]));
                TRY(0, (output_asked = asks, bests[NUMBERS * at + 3] = outside[i]));
            }
}

/* ---- the fifth number: any is taken, and what is stored stays what it was */
static void fifth_numbers(void) {
    enum { GRID = 4 };
    const int32_t any[] = {INT32_MIN, INT32_MIN + 1, -2, -1, 0, 1, 768, 769, INT32_MAX};
    static int32_t same_vectors[3 * GRID], same_output[2 * GRID];
    for (int asks = 0; asks <= 1; asks++) {
        TRY(0, output_asked = asks);
        memcpy(same_vectors, vectors, sizeof same_vectors);
        memcpy(same_output, output, sizeof same_output);
        for (size_t at = 0; at < ENTRIES; at++)
            for (int i = 0; i < 9; i++) {
                TRY(0, (output_asked = asks, bests[NUMBERS * at + OUTSIDE] = any[i]));
                expect(memcmp(vectors, same_vectors, sizeof same_vectors) == 0, "a vector has changed", (long)at, any[i]);
                expect(memcmp(output, same_output, sizeof same_output) == 0, "an output word has changed", (long)at, any[i]);
            }
    }
}

/* ---- several at once: the lowest is given */
static const uint32_t NUMBERS_GIVEN[] = {1, 2, 4, 5, 7};

static void spoil(uint32_t number) {
    if (number == 1) nx = 1;
    if (number == 2) diagonal = 0;
    if (number == 4) indices[2] = 4;
    if (number == 5) output_len = 1;
    if (number == 7) bests[2 * NUMBERS + 1] = 32768;
}

static void several(void) {
    for (int low = 0; low < 5; low++) {
        TRY(NUMBERS_GIVEN[low], spoil(NUMBERS_GIVEN[low]));
        for (int high = low + 1; high < 5; high++)
            TRY(NUMBERS_GIVEN[low], (spoil(NUMBERS_GIVEN[low]), spoil(NUMBERS_GIVEN[high])));
        base();
        for (int at = low; at < 5; at++) spoil(NUMBERS_GIVEN[at]);
        asked("all from one number on", NUMBERS_GIVEN[low]);
    }
}

void finish_refusals_tests(void) {
    grids();
    diagonals();
    outside_the_grid();
    room();
    components();
    fifth_numbers();
    several();
}
