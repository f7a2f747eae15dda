/* What the files of the host share in making their cases. */
#ifndef CASES_H
#define CASES_H
#include "../../include/hirupango.h"

static const int32_t ENDS[] = {INT32_MIN, -1, INT32_MAX};

static inline struct hirupango_sides sides(int32_t x, int32_t y) {
    struct hirupango_sides made = {x, y};
    return made;
}

static inline int is_block(int32_t w, int32_t h) {
    return (w == 8 && h == 8) || (w == 16 && (h == 8 || h == 16));
}

static inline int is_pel(int32_t pel) {
    return pel == 1 || pel == 2 || pel == 4;
}

static inline int are_shifts(int32_t x, int32_t y) {
    return (x == 0 && y == 0) || (x == 1 && y == 0) || (x == 1 && y == 1);
}

/* Two numbers in a record's word. */
static inline int32_t pair(int32_t first, int32_t second) {
    return (int32_t)(((uint32_t)first & 65535) | (uint32_t)second << 16);
}

/* A plane at pel 2 with nothing between its rows. */
static inline struct hirupango_place tight(int32_t width, int32_t height) {
    struct hirupango_place place = {0, width, width, height, 2};
    return place;
}

/* The length that just holds a plane. */
static inline size_t held(struct hirupango_place place) {
    return place.base + (size_t)(place.height - 1) * (size_t)place.pitch + (size_t)place.width;
}

/* A picture: its sample at a place of a plane. */
static inline uint8_t texture(int x, int y, int plane) {
    uint32_t h = (uint32_t)(x * 73 + y * 151 + plane * 31) * 2654435761u;
    return (uint8_t)((h ^ h >> 15) >> 11);
}

/* The blocks of a square grid that stay inside their limits first, row by row, and then those of the last row and column. */
static inline void inside_first(int32_t *order, int grid) {
    int n = 0;
    for (int rim = 0; rim < 2; rim++)
        for (int y = 0; y < grid; y++)
            for (int x = 0; x < grid; x++)
                if ((x == grid - 1 || y == grid - 1) == rim) {
                    order[2 * n] = x;
                    order[2 * n++ + 1] = y;
                }
}

#endif
