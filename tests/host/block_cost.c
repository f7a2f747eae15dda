#include "../../include/hirupango.h"
#include "expect.h"

enum { ROOM = 8, FIRST = 256, MOST = 15 * 65536 + 16 };

static uint8_t a[MOST], b[MOST];

static const int32_t sizes[][2] = {{16, 16}, {16, 8}, {8, 8}, {8, 4}, {4, 4}};

struct call {
    int32_t measure, width, height;
    size_t a_len;
    int32_t a_pitch;
    size_t b_len;
    int32_t b_pitch;
    size_t room;
};

/* Of the samples only the first of block a are ever other than 0. */
static void begin(struct call c) {
    const int64_t numbers[] = {c.measure, c.width, c.height, (int64_t)c.a_len, c.a_pitch, (int64_t)c.b_len, c.b_pitch, (int64_t)c.room};
    given(numbers, sizeof numbers);
    given(a, FIRST);
}

static void asked(const char *what, uint32_t number, uint32_t value, struct call c) {
    uint8_t before[ROOM], out[ROOM];
    new_case("block cost", what);
    begin(c);
    memset(before, 0x5a, ROOM);
    memcpy(out, before, ROOM);
    uint32_t answered =
        hirupango_block_cost(c.measure, c.width, c.height, a, c.a_len, c.a_pitch, b, c.b_len, c.b_pitch, out, c.room);
    expect_answer(number, answered, value, before, out, ROOM);
}

/* The least slices that hold the block, with the given pitches. */
static struct call least(int32_t measure, int32_t width, int32_t height, int32_t a_pitch, int32_t b_pitch) {
    struct call c = {measure, width, height, 0, a_pitch, 0, b_pitch, ROOM};
    c.a_len = (size_t)(height - 1) * a_pitch + width;
    c.b_len = (size_t)(height - 1) * b_pitch + width;
    return c;
}

/* Everything is 0 but the first sample of a, which is 1: SAD 1, and SATD 8. */
static void one_difference(int32_t measure, int32_t width, int32_t height) {
    uint32_t value = measure ? 8 : 1;
    const int32_t pitches[] = {width, width + 1, 65536};
    for (int i = 0; i < 3; i++)
        for (int k = 0; k < 3; k++) asked("pitches", 0, value, least(measure, width, height, pitches[i], pitches[k]));

    const int32_t outside[] = {INT32_MIN, -1, 0, 1, width - 1, 65537, INT32_MAX};
    for (int i = 0; i < 7; i++) {
        struct call c = least(measure, width, height, width, width);
        c.a_pitch = outside[i];
        asked("pitch of a outside", 2, 0, c);
        c.a_pitch = width;
        c.b_pitch = outside[i];
        asked("pitch of b outside", 2, 0, c);
    }

    struct call c = least(measure, width, height, width, 2 * width);
    c.a_len--;
    asked("a one short", 3, 0, c);
    c = least(measure, width, height, 2 * width, width);
    c.b_len--;
    asked("b one short", 3, 0, c);
    c.a_len = c.b_len = 0;
    asked("nothing lent", 3, 0, c);
    c.room = 0;
    asked("nothing lent, no room", 3, 0, c);
    c.width++;
    asked("another size, nothing lent, no room", 2, 0, c);

    for (size_t room = 0; room <= 5; room++) {
        c = least(measure, width, height, width, width);
        c.room = room;
        asked("room", room < 4 ? 5 : 0, value, c);
    }
}

static int is_size(int32_t width, int32_t height) {
    for (int i = 0; i < 5; i++)
        if (sizes[i][0] == width && sizes[i][1] == height) return 1;
    return 0;
}

void block_cost_tests(void) {
    a[0] = 1;
    for (int i = 0; i < 5; i++)
        for (int32_t measure = 0; measure <= 1; measure++) one_difference(measure, sizes[i][0], sizes[i][1]);

    for (int32_t width = -1; width <= 17; width++)
        for (int32_t height = -1; height <= 17; height++) {
            struct call c = {0, width, height, MOST, 17, MOST, 17, ROOM};
            asked("size", is_size(width, height) ? 0 : 2, 1, c);
        }
    const int32_t measures[] = {INT32_MIN, -1, 2, 3, 256, INT32_MAX};
    for (int i = 0; i < 6; i++) asked("measure", 2, 0, least(measures[i], 8, 8, 8, 8));

    memset(a, 255, FIRST);
    asked("all 255", 0, 65280, least(0, 16, 16, 16, 16));
    asked("all 255, SATD", 0, 16 * 255 * 8, least(1, 16, 16, 16, 16));
    new_case("block cost", "null");
    uint32_t number = hirupango_block_cost(0, 8, 8, NULL, 0, 8, NULL, 0, 8, NULL, 0);
    expect(number == 3, "number", number, 3);
}
