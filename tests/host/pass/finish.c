#include "../best.h"
#include "lines.h"

/* The oracle starts with vectors and output of zeros. The vectors are lent just as long as they must be. */
bool finish_agrees(size_t line, struct numbers inputs, struct numbers answers) {
    int32_t nx = (int32_t)take(&inputs), ny = (int32_t)take(&inputs), diagonal = (int32_t)take(&inputs);
    bool asked = take(&inputs) != 0;
    size_t count = (size_t)take(&inputs);
    int32_t *indices = take_words(&inputs, count), *bests = take_words(&inputs, NUMBERS * count);
    size_t n = (size_t)nx * (size_t)ny;
    bool agrees = used_up(&inputs) && answers.left / (asked ? 5 : 3) == n;
    if (agrees) {
        struct lent vectors = lend(3 * n, 0), output = lend(2 * n, line);
        start_with(vectors, 3 * n, 0);
        start_with(output, asked ? 2 * n : 0, 0);
        uint32_t number = noted(hirupango_finish(nx, ny, indices, count, bests, NUMBERS * count, diagonal, asked, vectors.at,
                                                 vectors.length, output.at, output.length));
        agrees = number == 0 && holds(vectors, 3 * n, &answers) && holds(output, asked ? 2 * n : 0, &answers) &&
                 used_up(&answers);
        free(vectors.at);
        free(output.at);
    }
    free(indices);
    free(bests);
    return agrees;
}
