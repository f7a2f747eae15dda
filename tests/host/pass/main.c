/* pass KIND [refusals] < LINES: asks an exported function what the Rust was asked, and compares every number. Names each
 * line that differs and, where refusals are asked for, the number with which the port refused it, or 0; its last line
 * counts. */
#include "lines.h"

long read(int file, void *to, size_t n);
void *realloc(void *at, size_t n);

static const struct {
    const char *name;
    bool (*agrees)(size_t line, struct numbers inputs, struct numbers answers);
} kinds[] = {{"plan", plan_agrees}, {"evaluate", evaluate_agrees}, {"finish", finish_agrees},
             {"pass", pass_agrees}, {"level", level_agrees},       {"level_pass", level_pass_agrees}};

enum { KINDS = sizeof kinds / sizeof *kinds };

/* Standard input, with a newline behind it: so every line has an end, and a byte of 0 is a byte like any other. */
static char *all_input(size_t *length) {
    size_t room = 1 << 16;
    char *text = malloc(room);
    *length = 0;
    for (;;) {
        long more = read(0, text + *length, room - *length - 1);
        if (more <= 0) break;
        *length += (size_t)more;
        if (*length + 1 == room) text = realloc(text, room *= 2);
    }
    text[*length] = '\n';
    return text;
}

static bool is_digit(char c) {
    return '0' <= c && c <= '9';
}

/* One whole number that a blank, an `=` or the line's end stands behind, or none where something else stands there. The oracle never writes
 * more than 18 digits: more could come to another number. */
static bool read_number(const char **at, int64_t *number) {
    bool negative = **at == '-';
    const char *first = *at + negative, *digits = first;
    int64_t value = 0;
    for (; is_digit(*digits) && digits - first < 18; digits++) value = value * 10 + (*digits - '0');
    if (digits == first || (*digits != ' ' && *digits != '=' && *digits != '\n')) return false;
    *number = negative ? -value : value;
    *at = digits;
    return true;
}

/* A line's numbers up to its end; split is where the answers begin. A line with a word that is no number differs. */
static bool read_line(const char **at, int64_t *numbers, size_t *count, size_t *split) {
    bool parted = false, good = true;
    *count = 0;
    while (**at != '\n') {
        if (**at == ' ') {
            (*at)++;
        } else if (**at == '=' && !parted) {
            parted = true;
            *split = *count;
            (*at)++;
        } else if (good && read_number(at, numbers + *count)) {
            (*count)++;
        } else {
            good = false;
            (*at)++;
        }
    }
    return good && parted;
}

static size_t longest_line(const char *text, const char *end) {
    size_t most = 0, here = 0;
    for (; text != end; text++) {
        here = *text == '\n' ? 0 : here + 1;
        if (here > most) most = here;
    }
    return most;
}

int main(int count, char **words) {
    bool refusals = count == 3 && strcmp(words[2], "refusals") == 0;
    size_t kind = 0;
    while (kind < KINDS && (count != 2 + refusals || strcmp(words[1], kinds[kind].name) != 0)) kind++;
    if (kind == KINDS) {
        printf("usage: pass KIND [refusals] < LINES\n");
        return 2;
    }
    size_t bytes = 0;
    const char *at = all_input(&bytes), *end = at + bytes;
    int64_t *numbers = malloc((longest_line(at, end) + 1) * sizeof *numbers);
    long cases = 0, differ = 0;
    for (size_t line = 1; at < end; line++, at++) {
        if (*at == '#' || *at == '\n') {
            while (*at != '\n') at++;
        } else {
            size_t length = 0, split = 0;
            bool agrees = read_line(&at, numbers, &length, &split);
            struct numbers inputs = {numbers, split, false}, answers = {numbers + split, length - split, false};
            agrees = agrees && kinds[kind].agrees(line, inputs, answers);
            uint32_t refusal = told_refusal();
            cases++;
            if (!agrees) {
                differ++;
                printf("differs: line %ld", (long)line);
                if (refusals) printf(", refused with %d", (int)refusal);
                printf("\n");
            }
        }
    }
    printf("%ld cases, %ld differ\n", cases, differ);
    return differ != 0;
}
