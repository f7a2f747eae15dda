/* Counting of what held, for the files of the host. */
#ifndef EXPECT_H
#define EXPECT_H
#include <stddef.h>
#include <stdint.h>

int printf(const char *format, ...);
int memcmp(const void *a, const void *b, size_t n);
void *memcpy(void *to, const void *from, size_t n);
void *memset(void *to, int byte, size_t n);

/* A case is one call of an export with one input, and counts once: it passes if every check of it held. It begins here, and ends where the next
 * one does. */
void new_case(const char *export, const char *what);

/* What the export is asked with. A case whose inputs were all asked of it before is run, and not counted again. */
void given_number(int64_t number);
void given(const void *bytes, size_t n);

/* One check of the case. Each that fails is named, with two numbers: where there are such, what was found and what it must be. */
void expect(int held, const char *check, long a, long b);

/* The answer's number, and what is lent afterwards: value in the first four bytes where number is 0, else as it was. */
void expect_answer(uint32_t number, uint32_t answered, uint32_t value, const uint8_t *before, const uint8_t *after, size_t length);

/* Marks a buffer of words, each with its own, and says whether the words from one place to another still have theirs. There must be some. */
void mark(int32_t *words, size_t count);
int marked(const int32_t *words, size_t from, size_t to);

void block_cost_tests(void);
void packed_score_tests(void);
void numbers_tests(void);
void plan_refusals_tests(void);
void evaluate_refusals_tests(void);
void evaluate_runs_tests(void);
void absent_tests(void);
void finish_refusals_tests(void);
void frame_pair_tests(void);
void level_tests(void);
void level_pass_tests(void);

#endif
