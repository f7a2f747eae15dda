#include "../../include/hirupango.h"
#include "expect.h"

enum { ROOM = 8, MOST = 2 * 2049 * 2 + 4 };

static void diagonal(uint32_t number, uint32_t value, int32_t width, int32_t height, int32_t pel, size_t room) {
    const int64_t numbers[] = {width, height, pel, (int64_t)room};
    uint8_t before[ROOM], out[ROOM];
    new_case("diagonal", "sides, pel or room");
    given(numbers, sizeof numbers);
    memset(before, 0x3c, ROOM);
    memcpy(out, before, ROOM);
    uint32_t answered = hirupango_diagonal(width, height, pel, out, room);
    expect_answer(number, answered, value, before, out, ROOM);
}

static void slots(uint32_t number, uint32_t value, int32_t search_param, size_t room) {
    uint8_t before[ROOM], out[ROOM];
    new_case("slots", "search_param or room");
    given_number(search_param);
    given_number((int64_t)room);
    memset(before, 0xc3, ROOM);
    memcpy(out, before, ROOM);
    uint32_t answered = hirupango_slots(search_param, out, room);
    expect_answer(number, answered, value, before, out, ROOM);
}

static void diagonals(void) {
    diagonal(0, 4404, 1920, 1080, 2, ROOM);
    diagonal(0, 2, 2, 2, 1, ROOM);
    diagonal(0, 4 * 23170, 16384, 16384, 4, ROOM);
    const int32_t sides[] = {INT32_MIN, -1, 0, 1, 16385, INT32_MAX};
    for (int i = 0; i < 6; i++) {
        diagonal(2, 0, sides[i], 1080, 2, ROOM);
        diagonal(2, 0, 1920, sides[i], 2, ROOM);
        diagonal(2, 0, 1920, sides[i], 2, 0);
    }
    const int32_t pels[] = {INT32_MIN, -1, 0, 3, 5, 8, INT32_MAX};
    for (int i = 0; i < 7; i++) diagonal(2, 0, 1920, 1080, pels[i], ROOM);
    for (size_t room = 0; room <= 5; room++) diagonal(room < 4 ? 5 : 0, 4404, 1920, 1080, 2, room);
}

static void slot_counts(void) {
    const uint32_t counts[] = {2, 10, 26, 50};
    for (int32_t radius = 0; radius <= 3; radius++) {
        slots(0, counts[radius], radius, ROOM);
        slots(0, counts[radius], -radius, ROOM);
    }
    const int32_t outside[] = {INT32_MIN, INT32_MIN + 1, -4, 4, INT32_MAX};
    for (int i = 0; i < 5; i++) {
        slots(1, 0, outside[i], ROOM);
        slots(1, 0, outside[i], 0);
    }
    for (size_t room = 0; room <= 5; room++) slots(room < 4 ? 5 : 0, 10, 1, room);
}

static int32_t order[MOST];

/* Whether every block of the grid is in the order. As many entries as blocks: so each is there once. */
static int each_once(int32_t nx, int32_t ny) {
    static uint8_t there[MOST];
    memset(there, 0, sizeof there);
    for (int32_t i = 0; i < nx * ny; i++) {
        int32_t x = order[2 * i], y = order[2 * i + 1];
        if (x < 0 || x >= nx || y < 0 || y >= ny || there[y * nx + x]++) return 0;
    }
    return 1;
}

static void serpentine(uint32_t number, int32_t nx, int32_t ny, size_t length) {
    mark(order, MOST);
    new_case("serpentine order", "sides or room");
    given_number(nx);
    given_number(ny);
    given_number((int64_t)length);
    uint32_t answered = hirupango_serpentine_order(nx, ny, order, length);
    expect(answered == number, "number", answered, number);
    size_t written = number == 0 ? (size_t)(2 * nx * ny) : 0;
    expect(marked(order, written, MOST), "what is behind the order has changed", nx, ny);
    if (written > 0) expect(each_once(nx, ny), "each block is there once", nx, ny);
}

static void serpentines(void) {
    const int32_t of_4x3[] = {2, 1, 1, 1, 0, 0, 0, 2, 1, 0, 1, 2, 2, 0, 2, 2, 3, 0, 3, 2, 0, 1, 3, 1};
    serpentine(0, 4, 3, 24);
    expect(memcmp(order, of_4x3, sizeof of_4x3) == 0, "the order of 4x3", 1, 0);
    serpentine(0, 4, 3, 30);
    serpentine(5, 4, 3, 23);
    serpentine(5, 2, 2, 0);
    const int32_t below[] = {INT32_MIN, -2, -1, 0, 1};
    for (int i = 0; i < 5; i++) {
        serpentine(1, below[i], 2, MOST);
        serpentine(1, 2, below[i], MOST);
        serpentine(1, 2049, below[i], 0);
    }
    serpentine(0, 2048, 2, 2 * 2048 * 2);
    serpentine(0, 2, 2048, 2 * 2048 * 2);
    serpentine(2, 2049, 2, MOST);
    serpentine(2, 2, 2049, MOST);
    serpentine(2, INT32_MAX, INT32_MAX, 0);
    new_case("serpentine order", "null");
    uint32_t number = hirupango_serpentine_order(2, 2, NULL, 0);
    expect(number == 5, "number", number, 5);
}

void numbers_tests(void) {
    diagonals();
    slot_counts();
    serpentines();
}
