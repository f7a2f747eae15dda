/* The whole pass: what planning writes is evaluated, and its bests are finished, in the buffers that a host would keep. */
#include "pass.h"

struct hirupango_request request_of(struct hirupango_settings s, bool satd, int32_t pnew) {
    struct hirupango_request q;
    q.satd = satd;
    q.block = s.block;
    q.shift = s.shift;
    q.search_param = s.search.search_param;
    q.pnew = pnew;
    q.pel = s.level.pel;
    q.source.luma = s.planes.luma;
    q.source.u = s.planes.u;
    q.source.v = s.planes.v;
    return q;
}

bool take_blocks(struct numbers *from, struct pass *p) {
    p->blocks = (size_t)take(from);
    p->order = take_words(from, 2 * p->blocks);
    size_t held = (size_t)take(from);
    p->vectors = take_words(from, 3 * held);
    return held == p->blocks;
}

void leave_blocks(struct pass *p) {
    free(p->order);
    free(p->vectors);
}

static bool take_pass(struct numbers *from, struct pass *p) {
    size_t lengths[PLANES];
    bool satd;
    p->settings = take_settings(from, lengths, &satd);
    bool as_many = take_blocks(from, p);
    p->request = request_of(p->settings, satd, (int32_t)take(from));
    p->output_asked = take(from) != 0;
    for (size_t plane = 0; plane < PLANES; plane++) p->planes[plane] = take_bytes(from, lengths[plane]);
    p->planes[3] = take_plane(from, p->request.pel, &p->request.reference.luma);
    p->planes[4] = take_plane(from, p->request.pel, &p->request.reference.u);
    p->planes[5] = take_plane(from, p->request.pel, &p->request.reference.v);
    return used_up(from) && as_many;
}

static void leave(struct pass *p) {
    leave_blocks(p);
    for (size_t plane = 0; plane < 2 * PLANES; plane++) free(p->planes[plane].at);
}

static uint32_t evaluated(const struct pass *p, struct lent records, struct lent bests) {
    const struct bytes *b = p->planes;
    return noted(hirupango_evaluate(p->request, records.at, WORDS * p->blocks, b[0].at, b[0].length, b[1].at, b[1].length,
                                    b[2].at, b[2].length, b[3].at, b[3].length, b[4].at, b[4].length, b[5].at, b[5].length,
                                    bests.at, bests.length));
}

/* The vectors that planning was given are those that finishing stores into; output starts with zeros. */
static bool finished_agrees(const struct pass *p, struct lent indices, struct lent bests, int32_t diagonal, size_t line,
                            struct numbers *answers) {
    size_t n = p->blocks, words = p->output_asked ? 2 * n : 0;
    struct lent output = lend(words, line);
    start_with(output, words, 0);
    uint32_t number = noted(hirupango_finish(p->settings.grid.x, p->settings.grid.y, indices.at, n, bests.at, NUMBERS * n,
                                             diagonal, p->output_asked, p->vectors, 3 * n, output.at, output.length));
    bool agrees = number == 0;
    for (size_t i = 0; i < 3 * n; i++) agrees = p->vectors[i] == take(answers) && agrees;
    agrees = holds(output, words, answers) && agrees;
    free(output.at);
    return agrees;
}

bool steps_agree(const struct pass *p, size_t line, struct numbers answers) {
    size_t n = p->blocks;
    const struct bytes *b = p->planes;
    struct lent records = lend(WORDS * n, line), indices = lend(n, line), bests = lend(NUMBERS * n, line);
    uint32_t number = noted(hirupango_plan(p->settings, p->order, 2 * n, p->vectors, 3 * n, b[0].at, b[0].length, b[1].at,
                                           b[1].length, b[2].at, b[2].length, records.at, records.length, indices.at,
                                           indices.length));
    bool agrees;
    if (number != 0) {
        agrees = (number == 1 || number == 6) && take(&answers) == -1 && holds(records, 0, &answers) && holds(indices, 0, &answers);
    } else {
        struct numbers made = answers;
        take(&made);
        take(&made);
        int32_t diagonal = (int32_t)take(&made);
        agrees = take(&answers) == 0 && made_agrees(p->settings, &answers) && take(&answers) == (int64_t)n &&
                 holds(records, WORDS * n, &answers) && holds(indices, n, &answers) && evaluated(p, records, bests) == 0 &&
                 holds(bests, NUMBERS * n, &answers) && finished_agrees(p, indices, bests, diagonal, line, &answers);
    }
    agrees = agrees && used_up(&answers);
    free(records.at);
    free(indices.at);
    free(bests.at);
    return agrees;
}

bool pass_agrees(size_t line, struct numbers inputs, struct numbers answers) {
    struct pass p;
    bool agrees = take_pass(&inputs, &p) && steps_agree(&p, line, answers);
    leave(&p);
    return agrees;
}
