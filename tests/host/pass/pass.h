/* The steps of a pass on planes that are there: the line's own, or those of a level. */
#ifndef PASS_H
#define PASS_H
#include "../best.h"
#include "lines.h"

enum { WORDS = 12, PLANES = 3 };

/* The planes are the source's luma, U and V, and then the reference's. */
struct pass {
    struct hirupango_settings settings;
    struct hirupango_request request;
    bool output_asked;
    size_t blocks;
    int32_t *order, *vectors;
    struct bytes planes[2 * PLANES];
};

/* Order and vectors, and whether they are as many. leave_blocks frees them. */
bool take_blocks(struct numbers *from, struct pass *p);
void leave_blocks(struct pass *p);

/* Evaluating is asked what planning was; the reference's planes are left to be set. */
struct hirupango_request request_of(struct hirupango_settings s, bool satd, int32_t pnew);

/* Whether planning, evaluating and finishing answer so. */
bool steps_agree(const struct pass *p, size_t line, struct numbers answers);

#endif
