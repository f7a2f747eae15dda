/* A host in C, linked with libhirupango.a: calls every export on good and on bad input. Its last line counts the cases. */
#include "expect.h"
#include "marks.h"

enum { PLACES = 1 << 16 };

/* What the inputs of a case come down to: one number for each case, and those of all cases counted. */
static uint64_t print_of_case, seen[PLACES];
static long passed, failed, again;
static int checks, wrong;
static const char *export_of_case, *what_of_case;

/* Whether the case's inputs were asked before; from now on they were. */
static int asked_before(void) {
    size_t at = print_of_case % PLACES;
    while (seen[at] != 0 && seen[at] != print_of_case) at = (at + 1) % PLACES;
    if (seen[at] == print_of_case) return 1;
    seen[at] = print_of_case;
    return 0;
}

static void end_case(void) {
    if (!export_of_case) return;
    if (checks == 0) expect(0, "nothing is checked", 0, 0);
    if (wrong) {
        failed++;
    } else if (asked_before()) {
        again++;
    } else {
        passed++;
    }
}

void new_case(const char *export, const char *what) {
    end_case();
    export_of_case = export;
    what_of_case = what;
    checks = wrong = 0;
    print_of_case = 14695981039346656037u;
    while (*export) given_number(*export++);
}

/* FNV-1a, with its upper half stirred in too, so that every bit reaches the lower ones. */
static void stir(uint64_t word) {
    print_of_case = (print_of_case ^ word) * 1099511628211u;
    print_of_case ^= print_of_case >> 29;
}

void given_number(int64_t number) {
    stir((uint64_t)number);
}

void given(const void *bytes, size_t n) {
    const uint8_t *at = bytes;
    stir(n);
    for (size_t i = 0; i < n; i++) stir(at[i]);
}

void expect(int held, const char *check, long a, long b) {
    checks++;
    if (held) return;
    wrong = 1;
    printf("failed: %s, %s: %s, %ld %ld\n", export_of_case, what_of_case, check, a, b);
}

void expect_answer(uint32_t number, uint32_t answered, uint32_t value, const uint8_t *before, const uint8_t *after, size_t length) {
    expect(number == answered, "number", answered, number);
    if (number != 0) {
        expect(memcmp(before, after, length) == 0, "what is lent has changed", 1, 0);
        return;
    }
    uint32_t read = after[0] | (uint32_t)after[1] << 8 | (uint32_t)after[2] << 16 | (uint32_t)after[3] << 24;
    expect(read == value, "value", read, value);
    expect(memcmp(before + 4, after + 4, length - 4) == 0, "what is behind the value has changed", 1, 0);
}

void mark(int32_t *words, size_t count) {
    for (size_t i = 0; i < count; i++) words[i] = mark_of(i);
}

int marked(const int32_t *words, size_t from, size_t to) {
    for (size_t i = from; i < to; i++)
        if (words[i] != mark_of(i)) return 0;
    return from < to;
}

int main(void) {
    block_cost_tests();
    packed_score_tests();
    numbers_tests();
    plan_refusals_tests();
    evaluate_refusals_tests();
    evaluate_runs_tests();
    absent_tests();
    finish_refusals_tests();
    frame_pair_tests();
    level_tests();
    level_pass_tests();
    end_case();
    printf("host: %ld cases; %ld more were asked before, and are not counted\n", passed + failed, again);
    printf("%ld passed, %ld failed\n", passed, failed);
    return failed != 0;
}
