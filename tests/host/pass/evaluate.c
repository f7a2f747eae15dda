#include "../best.h"
#include "lines.h"

enum { WORDS = 12, PLANES = 3 };

struct bytes take_plane(struct numbers *from, int32_t pel, struct hirupango_place *place) {
    size_t length = 0;
    *place = take_place(from, pel, &length);
    return take_bytes(from, length);
}

static struct hirupango_request take_request(struct numbers *from, struct bytes planes[2 * PLANES]) {
    struct hirupango_request q;
    q.satd = take(from) != 0;
    q.pel = (int32_t)take(from);
    q.shift = take_sides(from);
    q.block = take_sides(from);
    q.search_param = (int32_t)take(from);
    q.pnew = (int32_t)take(from);
    planes[0] = take_plane(from, q.pel, &q.source.luma);
    planes[1] = take_plane(from, q.pel, &q.source.u);
    planes[2] = take_plane(from, q.pel, &q.source.v);
    planes[3] = take_plane(from, q.pel, &q.reference.luma);
    planes[4] = take_plane(from, q.pel, &q.reference.u);
    planes[5] = take_plane(from, q.pel, &q.reference.v);
    return q;
}

bool evaluate_agrees(size_t line, struct numbers inputs, struct numbers answers) {
    struct bytes p[2 * PLANES];
    struct hirupango_request q = take_request(&inputs, p);
    size_t n = (size_t)take(&inputs);
    int32_t *records = take_words(&inputs, WORDS * n);
    bool agrees = used_up(&inputs);
    if (agrees) {
        struct lent bests = lend(NUMBERS * n, line);
        uint32_t number = noted(hirupango_evaluate(q, records, WORDS * n, p[0].at, p[0].length, p[1].at, p[1].length, p[2].at,
                                                   p[2].length, p[3].at, p[3].length, p[4].at, p[4].length, p[5].at,
                                                   p[5].length, bests.at, bests.length));
        agrees = number == 0 && holds(bests, NUMBERS * n, &answers) && used_up(&answers);
        free(bests.at);
    }
    free(records);
    for (size_t plane = 0; plane < 2 * PLANES; plane++) free(p[plane].at);
    return agrees;
}
