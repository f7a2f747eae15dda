#include "../unread.h"
#include "lines.h"

enum { SHORT = CUT - 1 };

void take_raw_planes(struct numbers *from, struct hirupango_super_frame *frame, size_t lengths[RAW]) {
    frame->pitch.luma = (int32_t)take(from);
    frame->pitch.u = (int32_t)take(from);
    frame->pitch.v = (int32_t)take(from);
    frame->separate = take(from) != 0;
    frame->source_pitch.luma = (int32_t)take(from);
    frame->source_pitch.u = (int32_t)take(from);
    frame->source_pitch.v = (int32_t)take(from);
    for (size_t at = 0; at < RAW; at++) lengths[at] = (size_t)take(from);
}

struct hirupango_super_frame take_super_frame(struct numbers *from, size_t lengths[RAW]) {
    struct hirupango_super_frame frame;
    frame.frame = take_sides(from);
    frame.shift = take_sides(from);
    frame.pel = (int32_t)take(from);
    frame.level = (int32_t)take(from);
    take_raw_planes(from, &frame, lengths);
    return frame;
}

uint32_t ask_level(struct hirupango_super_frame frame, const uint8_t *const at[RAW], const size_t lengths[RAW], struct lent planes) {
    return hirupango_level(frame, at[0], lengths[0], at[1], lengths[1], at[2], lengths[2], at[3], lengths[3], at[4], lengths[4],
                           at[5], lengths[5], planes.at, planes.length);
}

static uint32_t ask_unread(struct hirupango_super_frame frame, const size_t lengths[RAW], struct lent planes) {
    const uint8_t *bytes = unread_bytes(), *const at[RAW] = {bytes, bytes, bytes, bytes, bytes, bytes};
    return ask_level(frame, at, lengths, planes);
}

/* With room for one number too few 0 becomes 5. It is asked last, so that another number stays. */
static bool short_agrees(struct hirupango_super_frame frame, const size_t lengths[RAW], uint32_t number) {
    struct lent planes = lend(SHORT, 0);
    struct numbers none = {NULL, 0, false};
    uint32_t answered = ask_unread(frame, lengths, planes);
    bool agrees = answered == (number == 0 ? 5 : number) && holds(planes, 0, &none);
    free(planes.at);
    return agrees;
}

bool level_agrees(size_t line, struct numbers inputs, struct numbers answers) {
    size_t lengths[RAW];
    struct hirupango_super_frame frame = take_super_frame(&inputs, lengths);
    for (size_t at = 0; at < RAW; at++)
        if (lengths[at] > MOST_UNREAD) return false;
    if (!used_up(&inputs)) return false;
    struct lent planes = lend(CUT, line);
    uint32_t number = noted(ask_unread(frame, lengths, planes));
    bool agrees = take(&answers) == number && holds(planes, number == 0 ? CUT : 0, &answers) && used_up(&answers);
    free(planes.at);
    return agrees && short_agrees(frame, lengths, number);
}
