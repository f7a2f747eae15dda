#include "../../include/hirupango.h"
#include "expect.h"

enum { ROOM = 8 };

static void asked(const char *what, uint32_t number, uint32_t value, int32_t x, int32_t y, int32_t sad, int32_t diagonal,
                  int32_t average, size_t room) {
    const int64_t numbers[] = {x, y, sad, diagonal, average, (int64_t)room};
    uint8_t before[ROOM], out[ROOM];
    new_case("packed score", what);
    given(numbers, sizeof numbers);
    memset(before, 0xa5, ROOM);
    memcpy(out, before, ROOM);
    uint32_t answered = hirupango_packed_score(x, y, sad, diagonal, average, out, room);
    expect_answer(number, answered, value, before, out, ROOM);
}

void packed_score_tests(void) {
    asked("661", 0, 100, 661, 0, 100, 4404, 0, ROOM);
    asked("705", 0, 118, 705, 0, 100, 4404, 0, ROOM);
    asked("1000", 0, 280, 1000, 0, 100, 4404, 0, ROOM);
    asked("2300", 0, 2000, 2300, 0, 100, 4404, 0, ROOM);
    asked("average", 0, 0xff000064, 0, 0, 100, 4404, -1, ROOM);
    asked("average over 8 bits", 0, 0x34000064, 0, 0, 100, 4404, 0x1234, ROOM);
    asked("negative SAD", 0, 0x00ffffff, 0, 0, -1, 4404, 0, ROOM);

    const int32_t inside[] = {-32768, -32767, -1, 0, 1, 32767};
    const int32_t outside[] = {INT32_MIN, -32769, 32768, INT32_MAX};
    for (int i = 0; i < 4; i++) {
        asked("x outside", 2, 0, outside[i], 0, 100, 4404, 0, ROOM);
        asked("y outside", 2, 0, 0, outside[i], 100, 4404, 0, ROOM);
        asked("x outside and no room", 2, 0, outside[i], 0, 100, 4404, 0, 0);
    }
    for (int i = 0; i < 6; i++) {
        asked("diagonal 0", 2, 0, inside[i], 0, 100, 0, 0, ROOM);
        asked("diagonal below 0", 2, 0, 0, inside[i], 100, -1, 0, ROOM);
        asked("diagonal least", 2, 0, 0, inside[i], 100, INT32_MIN, 0, ROOM);
    }
    for (size_t room = 0; room <= 5; room++) asked("room", room < 4 ? 5 : 0, 100, 661, 0, 100, 4404, 0, room);
    new_case("packed score", "null");
    uint32_t number = hirupango_packed_score(0, 0, 0, 1, 0, NULL, 0);
    expect(number == 5, "number", number, 5);
}
