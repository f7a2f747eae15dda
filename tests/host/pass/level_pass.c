/* The whole pass on a level of two super frames: the export says where the planes are, and they are handed on as they are. */
#include "pass.h"

enum { FRAMES = 2 };

struct level_pass {
    struct hirupango_super_frame frames[FRAMES];
    struct bytes raw[FRAMES][RAW];
    struct pass pass;
    bool satd;
    int32_t pnew;
};

static void take_fills(struct numbers *from, const size_t lengths[RAW], struct bytes raw[RAW]) {
    for (size_t at = 0; at < RAW; at++) raw[at] = take_bytes(from, lengths[at]);
}

static bool take_level_pass(struct numbers *from, struct level_pass *p) {
    size_t lengths[RAW];
    p->frames[0] = take_super_frame(from, lengths);
    take_fills(from, lengths, p->raw[0]);
    p->frames[1] = p->frames[0];
    take_raw_planes(from, &p->frames[1], lengths);
    take_fills(from, lengths, p->raw[1]);
    take_settings_on_level(from, &p->pass.settings, &p->satd);
    bool as_many = take_blocks(from, &p->pass);
    p->pnew = (int32_t)take(from);
    p->pass.output_asked = take(from) != 0;
    return used_up(from) && as_many;
}

static void leave(struct level_pass *p) {
    leave_blocks(&p->pass);
    for (size_t at = 0; at < FRAMES * RAW; at++) free(p->raw[at / RAW][at % RAW].at);
}

/* Cuts a frame's level: the places of its three planes, and the bytes of the raw planes that they are in. */
static bool cut(const struct level_pass *p, size_t frame, size_t line, struct hirupango_place places[PLANES], struct bytes planes[PLANES]) {
    const struct bytes *raw = p->raw[frame];
    const struct hirupango_super_frame f = p->frames[frame];
    const uint8_t *const at[RAW] = {raw[0].at, raw[1].at, raw[2].at, raw[3].at, raw[4].at, raw[5].at};
    const size_t lengths[RAW] = {raw[0].length, raw[1].length, raw[2].length, raw[3].length, raw[4].length, raw[5].length};
    struct lent numbers = lend(CUT, line);
    bool done = noted(ask_level(f, at, lengths, numbers)) == 0;
    size_t from = f.separate && f.level == 0 ? PLANES : 0;
    for (size_t plane = 0; plane < PLANES; plane++) {
        const int32_t *n = numbers.at + 5 * plane;
        struct hirupango_place place = {(size_t)n[0], n[1], n[2], n[3], n[4]};
        places[plane] = place;
        planes[plane] = raw[from + plane];
    }
    free(numbers.at);
    return done;
}

/* Planning and evaluating are asked on the planes cut, with the level's pel. */
static bool cut_both(struct level_pass *p, size_t line) {
    struct hirupango_place source[PLANES], reference[PLANES];
    struct pass *pass = &p->pass;
    if (!cut(p, 0, line, source, pass->planes) || !cut(p, 1, line, reference, pass->planes + PLANES)) return false;
    pass->settings.shift = p->frames[0].shift;
    pass->settings.level.pel = source[0].pel;
    pass->settings.planes.luma = source[0];
    pass->settings.planes.u = source[1];
    pass->settings.planes.v = source[2];
    pass->request = request_of(pass->settings, p->satd, p->pnew);
    pass->request.reference.luma = reference[0];
    pass->request.reference.u = reference[1];
    pass->request.reference.v = reference[2];
    return true;
}

bool level_pass_agrees(size_t line, struct numbers inputs, struct numbers answers) {
    struct level_pass p;
    bool agrees = take_level_pass(&inputs, &p) && cut_both(&p, line) && steps_agree(&p.pass, line, answers);
    leave(&p);
    return agrees;
}
