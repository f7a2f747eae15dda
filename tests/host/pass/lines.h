/* The oracle's lines, `inputs = answers`, and the buffers that are lent for them. */
#ifndef LINES_H
#define LINES_H
#include <stdbool.h>
#include <stddef.h>
#include <stdint.h>

#include "../../../include/hirupango.h"

int printf(const char *format, ...);
void *malloc(size_t n);
void free(void *at);
int strcmp(const char *a, const char *b);

/* Numbers still to be read. Past the last one 0 is read, and short_of says so. */
struct numbers {
    const int64_t *at;
    size_t left;
    bool short_of;
};

int64_t take(struct numbers *from);

/* Whether all were read, and none was missing. */
bool used_up(const struct numbers *from);

/* So many of them as 32-bit words, or none where there are fewer. The caller frees them. */
int32_t *take_words(struct numbers *from, size_t count);

/* A lent buffer of needed words and, on every other line, some more. Behind what is lent stand words that are not. Each
 * holds its mark before the call. */
struct lent {
    int32_t *at;
    size_t length, whole;
};

struct lent lend(size_t needed, size_t line);

/* Sets the first count words, where something was there before. */
void start_with(struct lent buffer, size_t count, int32_t word);

/* Whether the first count words are the next answers, and every other one is as it was. */
bool holds(struct lent buffer, size_t count, struct numbers *answers);

/* Where a plane stands, as the oracle has it, and how many bytes it has. The oracle's planes have the plan's pel. */
struct hirupango_sides take_sides(struct numbers *from);
struct hirupango_place take_place(struct numbers *from, int32_t pel, size_t *length);

/* The bytes of a plane, by the oracle's rule (tests/oracle/README.md); none, and short_of says so, where they would be more than the oracle makes.
 * The caller frees them. */
struct bytes {
    uint8_t *at;
    size_t length;
};

struct bytes take_bytes(struct numbers *from, size_t length);
struct bytes take_plane(struct numbers *from, int32_t pel, struct hirupango_place *place);

/* What planning is asked, and how many bytes each plane has. */
struct hirupango_settings take_settings(struct numbers *from, size_t lengths[3], bool *satd);

/* The same where the line leaves pel, shifts and planes to a level: these three are not set. */
void take_settings_on_level(struct numbers *from, struct hirupango_settings *s, bool *satd);

/* A super frame's raw planes are six: the packed luma, U and V, and then the separate source's. Of two frames the second has only raw planes of its
 * own on the line. */
enum { RAW = 6, CUT = 15 };

struct hirupango_super_frame take_super_frame(struct numbers *from, size_t lengths[RAW]);
void take_raw_planes(struct numbers *from, struct hirupango_super_frame *frame, size_t lengths[RAW]);
uint32_t ask_level(struct hirupango_super_frame frame, const uint8_t *const at[RAW], const size_t lengths[RAW], struct lent planes);

/* Whether a done plan's slots and diagonal are the next answers. */
bool made_agrees(struct hirupango_settings s, struct numbers *answers);

/* The number with which an export answered is noted on its way; the first that was no 0 is told, once. */
uint32_t noted(uint32_t number);
uint32_t told_refusal(void);

/* The kinds: whether what is answered from the inputs is what stands in the answers. */
bool plan_agrees(size_t line, struct numbers inputs, struct numbers answers);
bool evaluate_agrees(size_t line, struct numbers inputs, struct numbers answers);
bool pass_agrees(size_t line, struct numbers inputs, struct numbers answers);
bool finish_agrees(size_t line, struct numbers inputs, struct numbers answers);
bool level_agrees(size_t line, struct numbers inputs, struct numbers answers);
bool level_pass_agrees(size_t line, struct numbers inputs, struct numbers answers);

#endif
