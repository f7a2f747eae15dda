/* A level's refusals, each way into one: the case one step outside with its number, and its neighbour inside with 0. Then where the planes of small
 * frames lie, number by number. The raw planes are lent and never read. */
#include "cases.h"
#include "expect.h"
#include "unread.h"

enum { RAW = 6, PACKED = 3, CUT = 15, ROOM = 20, LONGEST = (1 << 30) - 1 };

static struct hirupango_super_frame f;
static size_t lengths[RAW], planes_len;
static int32_t planes[ROOM];

/* ---- making a case */
/* One raw plane after the other: the packed luma, U and V, and then the separate source's. */
static int32_t *pitch(int at) {
    int32_t *pitches[RAW] = {&f.pitch.luma, &f.pitch.u, &f.pitch.v, &f.source_pitch.luma, &f.source_pitch.u, &f.source_pitch.v};
    return pitches[at];
}

static void all_pitches(int32_t to) {
    for (int at = 0; at < RAW; at++) *pitch(at) = to;
}

static void all_lengths(size_t to) {
    for (int at = 0; at < RAW; at++) lengths[at] = to;
}

/* Level 1 of 10x10 at pel 2, with more bytes than it needs. */
static void base(void) {
    f.frame = sides(10, 10);
    f.shift = sides(1, 1);
    f.pel = 2;
    f.level = 1;
    f.separate = false;
    all_pitches(16);
    all_lengths(LONGEST);
    planes_len = CUT;
}

/* A frame of these sides, in rows that are wide enough for any. */
static void frame(int32_t width, int32_t height, int32_t level) {
    f.frame = sides(width, height);
    f.pel = 1;
    f.level = level;
    all_pitches(16384);
}

/* ---- asking */
static void begin(const char *what) {
    new_case("level", what);
    given(&f, sizeof f);
    given(lengths, sizeof lengths);
    given_number((int64_t)planes_len);
}

/* The bytes of the packed planes and of the source's may be null where they are none. */
static void asked_of(const char *what, uint32_t number, const uint8_t *packed, const uint8_t *source) {
    mark(planes, ROOM);
    begin(what);
    given_number(packed == NULL);
    given_number(source == NULL);
    uint32_t answered = hirupango_level(f, packed, lengths[0], packed, lengths[1], packed, lengths[2], source, lengths[3], source,
                                        lengths[4], source, lengths[5], planes, planes_len);
    expect(answered == number, "number", answered, number);
    expect(marked(planes, answered == 0 ? CUT : 0, ROOM), "what is behind the planes has changed", 1, 0);
}

static void asked(const char *what, uint32_t number) {
    asked_of(what, number, unread_bytes(), unread_bytes());
}

/* The base with one change, and the number that it must be given. */
#define TRY(number, change) (base(), (change), asked(#change, number))

/* ---- 2 */
static void frame_sides(void) {
    const int32_t inside[] = {2, 3, 16383, 16384}, outside[] = {INT32_MIN, -2, -1, 0, 1, 16385, INT32_MAX};
    for (int i = 0; i < 4; i++) {
        TRY(0, frame(inside[i], 10, 0));
        TRY(0, frame(10, inside[i], 0));
    }
    for (int i = 0; i < 7; i++) {
        TRY(2, (frame(outside[i], 10, 0), all_pitches(65536)));
        TRY(2, (frame(10, outside[i], 0), all_pitches(65536)));
        TRY(2, (frame(10, outside[i], 1), all_pitches(65536)));
    }
}

static void pels_and_shifts(void) {
    for (int32_t level = 0; level <= 1; level++) {
        for (int32_t pel = -1; pel <= 9; pel++) TRY(is_pel(pel) ? 0 : 2, (f.level = level, f.pel = pel));
        for (int i = 0; i < 3; i++) TRY(2, (f.level = level, f.pel = ENDS[i]));
    }
    for (int32_t x = -1; x <= 3; x++)
        for (int32_t y = -1; y <= 3; y++) TRY(are_shifts(x, y) ? 0 : 2, f.shift = sides(x, y));
    for (int i = 0; i < 3; i++) {
        TRY(2, f.shift.x = ENDS[i]);
        TRY(2, f.shift.y = ENDS[i]);
    }
    /* which a processor would take for 1 */
    TRY(2, f.shift.x = 33);
}

static void pitch_of(int at, int32_t width, bool separate, int32_t level) {
    TRY(0, (f.separate = separate, f.level = level, *pitch(at) = width));
    TRY(2, (f.separate = separate, f.level = level, *pitch(at) = width - 1));
    TRY(0, (f.separate = separate, f.level = level, *pitch(at) = 65536));
    TRY(2, (f.separate = separate, f.level = level, *pitch(at) = 65537));
    for (int i = 0; i < 3; i++) TRY(2, (f.separate = separate, f.level = level, *pitch(at) = ENDS[i]));
}

/* As wide as the widest level in its raw plane, whichever level is asked for. */
static void pitches(void) {
    for (int32_t level = 0; level <= 2; level++)
        for (int at = 0; at < PACKED; at++) {
            pitch_of(at, at == 0 ? 10 : 5, false, level);
            pitch_of(at, at == 0 ? 4 : 2, true, level);
            pitch_of(PACKED + at, at == 0 ? 10 : 5, true, level);
        }
    for (int at = 1; at < PACKED; at++) {
        TRY(0, (f.shift = sides(0, 0), *pitch(at) = 10));
        TRY(2, (f.shift = sides(0, 0), *pitch(at) = 9));
        TRY(0, (f.shift = sides(1, 0), *pitch(at) = 5));
        TRY(2, (f.shift = sides(1, 0), *pitch(at) = 4));
    }
    /* a packed plane that can hold no level at all */
    TRY(0, (f.separate = true, f.frame = sides(3, 3), f.level = 0, f.pitch.luma = f.pitch.u = f.pitch.v = 0));
    TRY(2, (f.separate = true, f.frame = sides(3, 3), f.level = 0, f.pitch.luma = -1));
}

/* ---- 9 */
static void level_range(void) {
    for (int i = 0; i < 3; i++) TRY(9, f.level = ENDS[i]);
    TRY(0, f.level = 0);
    TRY(9, f.level = 16);
    TRY(9, (f.separate = true, f.level = -1));
    TRY(9, (f.separate = true, f.level = 16));
    for (int32_t level = 0; level <= 16; level++) TRY(level <= 13 ? 0 : 9, frame(16384, 16384, level));
}

/* The least side of each level, on either axis. */
static void sides_that_come_to_0(void) {
    for (int32_t level = 1; level <= 13; level++) {
        int32_t least = 2 << level;
        TRY(0, frame(least, 16384, level));
        TRY(9, frame(least - 1, 16384, level));
        TRY(0, frame(16384, least, level));
        TRY(9, frame(16384, least - 1, level));
        TRY(9, (frame(16384, least - 1, level), f.separate = true));
    }
    TRY(0, f.level = 2);
    TRY(9, f.level = 3);
}

/* ---- 3 */
static void length_of(int at, size_t least, bool separate, int32_t level) {
    TRY(0, (f.separate = separate, f.level = level, lengths[at] = least));
    TRY(3, (f.separate = separate, f.level = level, lengths[at] = least - 1));
    TRY(3, (f.separate = separate, f.level = level, lengths[at] = 0));
    TRY(3, (f.separate = separate, f.level = level, lengths[at] = (size_t)LONGEST + 1));
}

/* A raw plane that the level isn't cut from can have any length. */
static void unused(int at, bool separate, int32_t level) {
    TRY(0, (f.separate = separate, f.level = level, lengths[at] = 0));
    TRY(0, (f.separate = separate, f.level = level, lengths[at] = (size_t)LONGEST + 1));
}

static void raw_lengths(void) {
    for (int at = 0; at < PACKED; at++) {
        length_of(at, at == 0 ? 9 * 16 + 10 : 4 * 16 + 5, false, 0);
        length_of(at, at == 0 ? 640 + 3 * 16 + 4 : 320 + 16 + 2, false, 1);
        length_of(at, at == 0 ? 704 + 16 + 2 : 352 + 1, false, 2);
        length_of(at, at == 0 ? 3 * 16 + 4 : 16 + 2, true, 1);
        length_of(at, at == 0 ? 64 + 16 + 2 : 32 + 1, true, 2);
        length_of(PACKED + at, at == 0 ? 9 * 16 + 10 : 4 * 16 + 5, true, 0);
        unused(at, true, 0);
        unused(PACKED + at, true, 1);
        unused(PACKED + at, true, 2);
        unused(PACKED + at, false, 0);
        unused(PACKED + at, false, 1);
    }
}

/* A luma plane that ends at or behind the last byte that there can be. Then bases that are small once they are cut to 32 bits. */
static void far_bases(void) {
    TRY(0, (frame(5632, 16380, 1), f.pitch.luma = 43703));
    TRY(0, (frame(5635, 16380, 1), f.pitch.luma = 43703));
    TRY(3, (frame(5636, 16380, 1), f.pitch.luma = 43703));
    TRY(3, (frame(5632, 16380, 1), f.pitch.luma = 43704));
    TRY(3, (frame(5632, 16380, 1), f.pitch.luma = 43703, lengths[0]--));
    TRY(0, (frame(5632, 16380, 1), f.pitch.luma = 65536, f.separate = true));
    TRY(3, (frame(16384, 16384, 1), f.pel = 2));
    TRY(3, (frame(16384, 16384, 1), f.pel = 4));
    TRY(3, (frame(16384, 16384, 13), f.pel = 4, all_pitches(65536)));
    TRY(0, (frame(16384, 16384, 1), f.pel = 4, f.separate = true));
    TRY(0, (frame(16384, 16384, 0), f.pel = 4));
}

/* ---- 5 */
static void room(void) {
    for (size_t length = 0; length <= ROOM; length++) TRY(length < CUT ? 5 : 0, planes_len = length);
    base();
    planes_len = 0;
    begin("null for the planes' numbers");
    const uint8_t *bytes = unread_bytes();
    uint32_t number = hirupango_level(f, bytes, lengths[0], bytes, lengths[1], bytes, lengths[2], bytes, lengths[3], bytes, lengths[4],
                                      bytes, lengths[5], NULL, 0);
    expect(number == 5, "number", number, 5);
}

/* ---- several at once: 2, then 9, then 3, and 5 last */
static void spoil(uint32_t number) {
    if (number == 2) f.pel = 3;
    if (number == 9) f.level = 16;
    if (number == 3) all_lengths(0);
    if (number == 5) planes_len = 0;
}

static void several(void) {
    static const uint32_t in_order[] = {2, 9, 3, 5};
    for (int first = 0; first < 4; first++) {
        for (int later = first; later < 4; later++) TRY(in_order[first], (spoil(in_order[first]), spoil(in_order[later])));
        base();
        for (int at = first; at < 4; at++) spoil(in_order[at]);
        asked("all from one number on", in_order[first]);
    }
    TRY(2, (f.pitch.luma = 9, f.level = 3));
    TRY(9, (f.level = 3, all_lengths(0)));
}

/* ---- the separate source: where there is none its numbers are not looked at. Bytes that the level isn't cut from can be null. */
static void without_source(void) {
    for (int32_t level = 0; level <= 1; level++)
        for (int i = 0; i < 3; i++)
            for (int at = PACKED; at < RAW; at++) {
                TRY(0, (f.level = level, *pitch(at) = ENDS[i]));
                TRY(2, (f.level = level, *pitch(at) = ENDS[i], f.separate = true));
            }
}

/* Three raw planes that just hold the base's level, and no bytes in the other three. */
static void three_lengths(int from, size_t luma, size_t chroma) {
    all_lengths(0);
    lengths[from] = luma;
    lengths[from + 1] = lengths[from + 2] = chroma;
}

static void nulls(void) {
    base();
    three_lengths(0, 692, 338);
    asked_of("null for a source that is not there", 0, unread_bytes(), NULL);
    f.separate = true;
    three_lengths(0, 52, 18);
    asked_of("null for a source that level 1 is not cut from", 0, unread_bytes(), NULL);
    f.level = 0;
    three_lengths(PACKED, 154, 69);
    asked_of("null for packed planes, and a whole source", 0, NULL, unread_bytes());
    all_lengths(0);
    asked_of("null for all", 3, NULL, NULL);
}

/* ---- where the planes lie: base, pitch, width, height and pel of luma, of U and of V */
static void lie(const char *what, const int32_t expected[CUT]) {
    asked(what, 0);
    for (int i = 0; i < CUT; i++) expect(planes[i] == expected[i], "a plane's number", planes[i], expected[i]);
}

#define LIE(change, ...) (base(), (change), lie(#change, (const int32_t[CUT]){__VA_ARGS__}))

/* The source is in rows of 11, 6 and 7; the packed planes are in rows of 9, which are too narrow for level 0. */
static void apart(int32_t level) {
    f.level = level;
    f.separate = true;
    f.pitch.luma = f.pitch.u = f.pitch.v = 9;
    f.source_pitch.luma = 11;
    f.source_pitch.u = 6;
    f.source_pitch.v = 7;
}

static void smallest(void) {
    LIE(f.level = 0, 0, 16, 10, 10, 2, 0, 16, 5, 5, 2, 0, 16, 5, 5, 2);
    LIE(f.level = 1, 640, 16, 4, 4, 1, 320, 16, 2, 2, 1, 320, 16, 2, 2, 1);
    LIE(f.level = 2, 704, 16, 2, 2, 1, 352, 16, 1, 1, 1, 352, 16, 1, 1, 1);
    TRY(9, f.level = 3);
    LIE((f.separate = true, f.level = 0), 0, 16, 10, 10, 2, 0, 16, 5, 5, 2, 0, 16, 5, 5, 2);
    LIE((f.separate = true, f.level = 1), 0, 16, 4, 4, 1, 0, 16, 2, 2, 1, 0, 16, 2, 2, 1);
    LIE((f.separate = true, f.level = 2), 64, 16, 2, 2, 1, 32, 16, 1, 1, 1, 32, 16, 1, 1, 1);
    LIE(apart(0), 0, 11, 10, 10, 2, 0, 6, 5, 5, 2, 0, 7, 5, 5, 2);
    LIE(apart(1), 0, 9, 4, 4, 1, 0, 9, 2, 2, 1, 0, 9, 2, 2, 1);
    LIE(apart(2), 36, 9, 2, 2, 1, 18, 9, 1, 1, 1, 18, 9, 1, 1, 1);
    TRY(2, (apart(1), f.separate = false));
}

/* 1920x1080 has 1080, 540, 270 and 134 rows. Of chroma's, which are half as many or as many, those of a level may be odd. */
static void usual(int32_t pel, int32_t level, int32_t shift_y) {
    f.frame = sides(1920, 1080);
    f.shift = sides(1, shift_y);
    f.pel = pel;
    f.level = level;
    f.pitch.luma = 2048;
    f.pitch.u = 1000;
    f.pitch.v = 1001;
}

static void usual_frames(void) {
    LIE(usual(4, 0, 1), 0, 2048, 1920, 1080, 4, 0, 1000, 960, 540, 4, 0, 1001, 960, 540, 4);
    LIE(usual(1, 1, 1), 1080 * 2048, 2048, 960, 540, 1, 540 * 1000, 1000, 480, 270, 1, 540 * 1001, 1001, 480, 270, 1);
    LIE(usual(2, 1, 1), 4320 * 2048, 2048, 960, 540, 1, 2160 * 1000, 1000, 480, 270, 1, 2160 * 1001, 1001, 480, 270, 1);
    LIE(usual(2, 3, 1), 5130 * 2048, 2048, 240, 134, 1, 2565 * 1000, 1000, 120, 67, 1, 2565 * 1001, 1001, 120, 67, 1);
    LIE(usual(2, 3, 0), 5130 * 2048, 2048, 240, 134, 1, 5130 * 1000, 1000, 120, 134, 1, 5130 * 1001, 1001, 120, 134, 1);
    LIE(usual(4, 3, 1), 18090 * 2048, 2048, 240, 134, 1, 9045 * 1000, 1000, 120, 67, 1, 9045 * 1001, 1001, 120, 67, 1);
}

void level_tests(void) {
    frame_sides();
    pels_and_shifts();
    pitches();
    level_range();
    sides_that_come_to_0();
    raw_lengths();
    far_bases();
    room();
    several();
    without_source();
    nulls();
    smallest();
    usual_frames();
}
