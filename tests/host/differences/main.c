/* differences < LINE: asks an export what `oracle outside NAME` was asked, and prints what the port does: its number, or what it answers or stores.
 * The line is the kind, and then all inputs, so that both are asked the same. */
#include "../../../include/hirupango.h"
#include "../best.h"
#include "../marks.h"
#include "../unread.h"

int printf(const char *format, ...);
int scanf(const char *format, ...);
int strcmp(const char *a, const char *b);
void *malloc(size_t n);
void exit(int status);

/* ---- reading */
static int64_t take(void) {
    long number;
    if (scanf("%ld", &number) == 1) return number;
    printf("a number is missing\n");
    exit(2);
}

static int32_t take_word(void) {
    return (int32_t)take();
}

static int32_t *take_words(size_t count) {
    int32_t *words = malloc((count + 1) * sizeof *words);
    for (size_t i = 0; i < count; i++) words[i] = take_word();
    return words;
}

static struct hirupango_sides take_sides(void) {
    struct hirupango_sides sides;
    sides.x = take_word();
    sides.y = take_word();
    return sides;
}

/* ---- what is lent */
/* So many words, and some behind them that are not lent; each holds its mark. */
struct lent {
    int32_t *at;
    size_t length;
};

enum { BEHIND = 4 };

static struct lent lend(size_t length) {
    struct lent made = {malloc((length + BEHIND) * sizeof *made.at), length};
    for (size_t i = 0; i < length + BEHIND; i++) made.at[i] = mark_of(i);
    return made;
}

static bool changed(struct lent words, size_t from, size_t to) {
    for (size_t i = from; i < to; i++)
        if (words.at[i] != mark_of(i)) return true;
    return false;
}

static bool any_changed(struct lent words) {
    return changed(words, 0, words.length + BEHIND);
}

/* A number that is given must leave all that was lent. */
static void refused(uint32_t number, struct lent a, struct lent b) {
    printf("%u%s\n", number, any_changed(a) || any_changed(b) ? ", and something lent has changed" : "");
}

/* ---- planes */
struct plane {
    struct hirupango_place place;
    const uint8_t *bytes;
    size_t length;
};

/* The oracle's rule (tests/oracle/README.md). A plane that is all 0 may be very long. */
static const uint8_t *bytes_of(size_t length, uint32_t seed, uint32_t levels) {
    if (levels == 1) return zero_bytes();
    uint8_t *bytes = malloc(length + 1);
    for (size_t i = 0; i < length; i++) {
        uint32_t h = ((uint32_t)i + seed * 7919) * 2654435761u, g = (h + h / 32768) * 2246822519u;
        bytes[i] = (uint8_t)(g / 16777216 * levels / 256);
    }
    return bytes;
}

static struct plane take_plane(void) {
    struct plane made;
    made.place.base = (size_t)take();
    made.place.pitch = take_word();
    made.place.width = take_word();
    made.place.height = take_word();
    made.place.pel = take_word();
    made.length = (size_t)take();
    uint32_t seed = (uint32_t)take(), levels = (uint32_t)take();
    made.bytes = bytes_of(made.length, seed, levels);
    return made;
}

/* ---- the kinds */
/* A number in the first 4 bytes, or a refusal. */
static void answered(uint32_t number, struct lent out) {
    if (number != 0) return refused(number, out, lend(0));
    printf("answers %d\n", out.at[0]);
}

static void ask_order(void) {
    struct hirupango_sides grid = take_sides();
    struct lent order = lend(2 * (size_t)grid.x * (size_t)grid.y);
    answered(hirupango_serpentine_order(grid.x, grid.y, order.at, order.length), order);
}

static void ask_score(void) {
    int32_t *given = take_words(5);
    struct lent out = lend(2);
    answered(hirupango_packed_score(given[0], given[1], given[2], given[3], given[4], (uint8_t *)out.at, 8), out);
}

/* Block a is 0, 1, 2 and so on, block b is all 0. */
static void ask_cost(void) {
    int32_t *given = take_words(4), width = given[1], height = given[2], pitch = given[3];
    size_t length = (size_t)(height - 1) * (size_t)pitch + (size_t)width;
    uint8_t *a = malloc(length);
    for (size_t i = 0; i < length; i++) a[i] = (uint8_t)i;
    struct lent out = lend(2);
    answered(hirupango_block_cost(given[0], width, height, a, length, pitch, zero_bytes(), length, pitch, (uint8_t *)out.at, 8), out);
}

/* The three packed planes, whether the source lies apart, the source's three; then six lengths. */
static void ask_level(void) {
    struct hirupango_super_frame f;
    f.frame = take_sides();
    f.shift = take_sides();
    f.pel = take_word();
    f.level = take_word();
    f.pitch.luma = take_word();
    f.pitch.u = take_word();
    f.pitch.v = take_word();
    f.separate = take() != 0;
    f.source_pitch.luma = take_word();
    f.source_pitch.u = take_word();
    f.source_pitch.v = take_word();
    size_t n[6];
    for (int at = 0; at < 6; at++) n[at] = (size_t)take();
    const uint8_t *bytes = unread_bytes();
    struct lent planes = lend(15);
    uint32_t number = hirupango_level(f, bytes, n[0], bytes, n[1], bytes, n[2], bytes, n[3], bytes, n[4], bytes, n[5], planes.at, planes.length);
    if (number != 0) return refused(number, planes, lend(0));
    printf("answers");
    for (size_t i = 0; i < planes.length; i++) printf(" %d", planes.at[i]);
    printf("\n");
}

static void ask_plan(void) {
    struct hirupango_settings s = {.search.exhaustive = true};
    s.search.search_param = take_word();
    s.weights.lambda = take_word();
    s.weights.bad_sad = take_word();
    s.block = take_sides();
    s.grid = take_sides();
    s.step = take_sides();
    s.level.pel = take_word();
    s.level.smallest = take() != 0;
    s.shift = take_sides();
    struct plane luma = take_plane(), u = take_plane(), v = take_plane();
    s.planes.luma = luma.place;
    s.planes.u = u.place;
    s.planes.v = v.place;
    size_t entries = (size_t)take();
    int32_t *order = take_words(2 * entries);
    size_t count = (size_t)take();
    int32_t *vectors = take_words(3 * count);
    struct lent records = lend(12 * entries), indices = lend(entries);
    uint32_t number = hirupango_plan(s, order, 2 * entries, vectors, 3 * count, luma.bytes, luma.length, u.bytes, u.length, v.bytes, v.length,
                                     records.at, records.length, indices.at, indices.length);
    if (number != 0) return refused(number, records, indices);
    printf("plans\n");
}

static void ask_evaluate(void) {
    struct hirupango_request q = {.pnew = 0};
    q.block = take_sides();
    q.shift = take_sides();
    q.search_param = take_word();
    q.pel = take_word();
    struct plane p[6];
    for (int at = 0; at < 6; at++) p[at] = take_plane();
    q.source.luma = p[0].place;
    q.source.u = p[1].place;
    q.source.v = p[2].place;
    q.reference.luma = p[3].place;
    q.reference.u = p[4].place;
    q.reference.v = p[5].place;
    size_t words = (size_t)take(), n = words / 12;
    int32_t *records = take_words(words);
    struct lent bests = lend(NUMBERS * n);
    uint32_t number = hirupango_evaluate(q, records, words, p[0].bytes, p[0].length, p[1].bytes, p[1].length, p[2].bytes, p[2].length, p[3].bytes,
                                         p[3].length, p[4].bytes, p[4].length, p[5].bytes, p[5].length, bests.at, bests.length);
    if (number != 0) return refused(number, bests, lend(0));
    printf("evaluates");
    for (size_t i = 0; i < NUMBERS * n; i++) printf("%s %d", i > 0 && i % NUMBERS == 0 ? ";" : "", bests.at[i]);
    printf("\n");
}

static void ask_finish(void) {
    struct hirupango_sides grid = take_sides();
    int32_t diagonal = take_word();
    bool asked = take() != 0;
    struct lent vectors = lend(3 * (size_t)take()), output = lend((size_t)take());
    size_t entries = (size_t)take();
    int32_t *indices = take_words(entries);
    size_t count = (size_t)take();
    int32_t *bests = take_words(NUMBERS * count);
    uint32_t number = hirupango_finish(grid.x, grid.y, indices, entries, bests, NUMBERS * count, diagonal, asked, vectors.at, vectors.length,
                                       output.at, output.length);
    if (number != 0) return refused(number, vectors, output);
    printf("stores");
    for (size_t i = 0; i < vectors.length; i += 3)
        if (changed(vectors, i, i + 3)) printf(" vector %ld: %d %d %d", (long)(i / 3), vectors.at[i], vectors.at[i + 1], vectors.at[i + 2]);
    for (size_t i = 0; i < output.length; i++)
        if (changed(output, i, i + 1)) printf(" word %ld: %d", (long)i, output.at[i]);
    printf("\n");
}

static const struct {
    const char *name;
    void (*ask)(void);
} kinds[] = {{"order", ask_order}, {"score", ask_score},       {"cost", ask_cost},
             {"plan", ask_plan},   {"evaluate", ask_evaluate}, {"finish", ask_finish}, {"level", ask_level}};

int main(void) {
    char kind[16];
    if (scanf("%15s", kind) != 1) return 2;
    for (size_t at = 0; at < sizeof kinds / sizeof *kinds; at++)
        if (strcmp(kind, kinds[at].name) == 0) {
            kinds[at].ask();
            return 0;
        }
    printf("no kind %s\n", kind);
    return 2;
}
