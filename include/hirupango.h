/* The last motion pass of a frame-rate converter, proved. Link libhirupango.a, for x86-64: tests/host/build leaves it in
 * target/staticlib (`rt lib` in crates/hirupango_c builds it, as out/libhirupango_c.a). Of the C library it needs memcpy
 * and memset alone.
 *
 * Every function takes every number and every lent slice, ends, and touches nothing else. It answers 0 where it is done,
 * or the lowest number that applies (hirupango_level: the first in its own order), and then leaves every lent buffer byte
 * for byte as it was. There is no state: nothing is kept from one call to the next, and any number of threads may call at
 * the same time.
 *
 * A slice is a pointer with the number of its elements. C alone can see to these, and must:
 *   - so many elements can be read there, and written where the pointer isn't const; of no elements the pointer may be null;
 *   - a pointer to int32_t is aligned for one;
 *   - a slice that is written overlaps no other slice of the call; slices that are only read may overlap each other;
 *   - while the call lasts no other thread writes what is lent, or touches what is lent to be written. */
#ifndef HIRUPANGO_H
#define HIRUPANGO_H

#include <stdbool.h>
#include <stddef.h>
#include <stdint.h>

#ifdef __cplusplus
extern "C" {
#endif

/* How far apart two blocks of samples are. measure 0 is SAD, 1 is SATD; the sizes are 16x16, 16x8, 8x8, 8x4 and 4x4; row y
 * of a block starts y x pitch bytes into its slice. On 0 the first 4 bytes of out are the cost, lowest byte first, and the
 * others stay.
 *   2  another measure or size, or a pitch that is not from the width to 65,536
 *   3  a slice that is shorter than (height - 1) x pitch + width
 *   5  out_len is under 4 */
uint32_t hirupango_block_cost(int32_t measure, int32_t width, int32_t height, const uint8_t *a, size_t a_len,
                              int32_t a_pitch, const uint8_t *b, size_t b_len, int32_t b_pitch, uint8_t *out,
                              size_t out_len);

/* The second output word of a block, from its vector (x, y), its SAD, the frame's diagonal and the block's average. On 0
 * the first 4 bytes of out are the word, lowest byte first, and the others stay.
 *   2  a component beyond i16, or a diagonal of 0 or less
 *   5  out_len is under 4 */
uint32_t hirupango_packed_score(int32_t x, int32_t y, int32_t sad, int32_t diagonal, int32_t average, uint8_t *out,
                                size_t out_len);

/* The frame's diagonal: pel x the whole root of width squared + height squared. On 0 the first 4 bytes of out are the
 * number, lowest byte first, and the others stay.
 *   2  a side not from 2 to 16,384, or a pel other than 1, 2 or 4
 *   5  out_len is under 4 */
uint32_t hirupango_diagonal(int32_t width, int32_t height, int32_t pel, uint8_t *out, size_t out_len);

/* How many costs one block has at most: 1 + (2 x radius + 1) squared; the radius is search_param without its sign. On 0 the
 * first 4 bytes of out are the number, lowest byte first, and the others stay.
 *   1  a radius over 3
 *   5  out_len is under 4 */
uint32_t hirupango_slots(int32_t search_param, uint8_t *out, size_t out_len);

/* The blocks of a grid of nx columns and ny rows in serpentine order. On 0 the first 2 x nx x ny numbers of order are x
 * and y of each block in turn, and the others stay.
 *   1  a side below 2
 *   2  a side over 2,048
 *   5  order_len is under 2 x nx x ny */
uint32_t hirupango_serpentine_order(int32_t nx, int32_t ny, int32_t *order, size_t order_len);

/* One number along each axis. */
struct hirupango_sides {
    int32_t x, y;
};

/* Where a plane lies in its bytes: row y of the frame starts at base + y x pitch. */
struct hirupango_place {
    size_t base;
    int32_t pitch, width, height, pel;
};

/* A frame with its pyramid, in raw planes: luma, U and V, each bytes and a pitch. The levels of a raw plane are packed one
 * below the other, in rows of pitch bytes: level 0 with its pel x pel subplanes, then level 1, and so on. Where level 0 is
 * kept apart, in three raw planes of its own, separate is true, and the packed planes begin with level 1. Handed over by
 * value. */
struct hirupango_super_frame {
    struct hirupango_sides frame, shift; /* level 0's width and height; how far chroma's sides are luma's shifted right */
    int32_t pel, level;
    struct {
        int32_t luma, u, v;
    } pitch;
    bool separate;
    struct {
        int32_t luma, u, v;
    } source_pitch; /* of the separate source; not looked at where there is none */
};

/* Where a level's three planes lie. luma, u and v are the packed planes' bytes, the three behind them the separate
 * source's; only their lengths are looked at, and where separate is false the source's not even that. On 0 the first 15
 * numbers of planes are base, pitch, width, height and pel of luma, of U and of V, and the others stay.
 * Level 0 has the frame's pel, every other level pel 1. Each level divides a side by 4, rounding down, and doubles it:
 * 1080, 540, 270, 134. Areas of two levels of one packed plane share no byte.
 * A host that cut its levels by hand copies the numbers into the struct hirupango_place of its settings and its request,
 * and hands the same bytes to hirupango_plan and hirupango_evaluate: the source's at level 0 where separate is true, else
 * the packed ones. level.pel and pel are luma's. Such planes are never refused with 3 there, nor with 2 for their numbers,
 * if the reference frame has the source frame's sides, shifts and pel, and the same level is asked of both.
 * The numbers are asked in this order:
 *   2  a side of the frame not from 2 to 16,384, a pel other than 1, 2 or 4, shifts other than (0,0), (1,0) or (1,1), or a
 *      pitch not from the width of the widest level that its raw plane holds to 65,536, whichever level is asked for
 *   9  a level not from 0 to 15, or a side that comes to 0
 *   3  a raw plane that the level is cut from of over 1,073,741,823 bytes, or of fewer than base + (height - 1) x pitch +
 *      width
 *   5  planes_len is under 15 */
uint32_t hirupango_level(struct hirupango_super_frame frame, const uint8_t *luma, size_t luma_len, const uint8_t *u,
                         size_t u_len, const uint8_t *v, size_t v_len, const uint8_t *source_luma, size_t source_luma_len,
                         const uint8_t *source_u, size_t source_u_len, const uint8_t *source_v, size_t source_v_len,
                         int32_t *planes, size_t planes_len);

/* What planning is asked for. Handed over by value. */
struct hirupango_settings {
    struct {
        bool exhaustive;
        int32_t search_param; /* the radius, with any sign */
    } search;
    struct {
        int32_t lambda, bad_sad;
    } weights;
    struct {
        bool smallest, need_luma;
        int32_t pel;
    } level;
    struct hirupango_sides block; /* a block's width and height */
    struct hirupango_sides grid;  /* how many blocks there are in a row and in a column */
    struct hirupango_sides step;  /* from one block to the next */
    struct hirupango_sides shift; /* how far chroma's sides are luma's shifted right */
    struct {
        struct hirupango_place luma, u, v;
    } planes;
};

/* Planning. n is the number of the grid's blocks, grid.x x grid.y. order is x and y of n blocks; vectors are x, y and SAD of
 * the n blocks, row by row; luma, u and v are the source planes' bytes, of which planning looks at the lengths alone. On 0
 * the first 12 x n words of records are a record for each entry of the order, the first n numbers of indices the entries'
 * places in the grid, row by row, and the others stay. The plan's slots are hirupango_slots of search_param, its diagonal
 * is hirupango_diagonal of luma's sides and level.pel.
 *   1  not exhaustive, a block other than 8x8, 16x8 or 16x16, a grid side below 2, order_len not 2 x n, or a radius over 3
 *   2  a grid side over 2,048, a step not from 1 to the block's side, luma's sides not from 2 to 16,384, a last block that
 *      ends outside the frame, a pel other than 1, 2 or 4, shifts other than (0,0), (1,0) or (1,1), a chroma side that is
 *      not luma's shifted, a pitch not from the plane's width to 65,536, vectors_len not 3 x n, or a component beyond i16
 *   3  a plane of over 1,073,741,823 bytes, or of fewer than base + (height - 1) x pitch + width
 *   4  an entry of the order outside the grid
 *   5  records_len is under 12 x n, or indices_len under n
 *   6  a record that doesn't fit its words: a plain block's lambda not from -2^30 to 2^30 - 1, or, at pel 4, a position over
 *      8,191 or a window's end over 32,767 */
uint32_t hirupango_plan(struct hirupango_settings settings, const int32_t *order, size_t order_len, const int32_t *vectors,
                        size_t vectors_len, const uint8_t *luma, size_t luma_len, const uint8_t *u, size_t u_len,
                        const uint8_t *v, size_t v_len, int32_t *records, size_t records_len, int32_t *indices,
                        size_t indices_len);

/* What evaluating is asked for. Handed over by value. */
struct hirupango_request {
    bool satd; /* SATD, or else SAD */
    struct hirupango_sides block, shift;
    int32_t search_param, pnew, pel;
    struct {
        struct hirupango_place luma, u, v;
    } source, reference;
};

/* Evaluating. n is the number of records, records_len / 12; luma, u and v are the source planes' bytes, and then the reference's. On 0 the
 * first 5 x n numbers of bests are x, y, SAD, average and absent of each record's best, and the others stay. absent is how many of the
 * reference's samples at that vector, luma's and of a plain block U's and V's too, lie outside the bytes lent: such a sample counts 0 in
 * the SAD, and is not black. A record without BAD was compared with nothing, and has -1 there.
 *   1  a block other than 8x8, 16x8 or 16x16, or a radius over 3
 *   2  a pel other than 1, 2 or 4, shifts other than (0,0), (1,0) or (1,1), source luma's sides not from 2 to 16,384, a chroma side that
 *      is not luma's shifted, a pitch not from the plane's width to 65,536, or a reference plane with other sides than the source's or another pel
 *   3  a plane of over 1,073,741,823 bytes, or of fewer than base + (height - 1) x pitch + width
 *   5  records_len is not a multiple of 12, or bests_len is under 5 x n
 *   7  a record with BAD set whose window has both sides non-empty and one over 2 x radius + 1 */
uint32_t hirupango_evaluate(struct hirupango_request request, const int32_t *records, size_t records_len, const uint8_t *luma,
                            size_t luma_len, const uint8_t *u, size_t u_len, const uint8_t *v, size_t v_len,
                            const uint8_t *reference_luma, size_t reference_luma_len, const uint8_t *reference_u,
                            size_t reference_u_len, const uint8_t *reference_v, size_t reference_v_len, int32_t *bests,
                            size_t bests_len);

/* Finishing. n is nx x ny. indices name blocks of the grid; bests are x, y, SAD, average and absent for each index, and absent
 * is not looked at. On 0 the vectors of the blocks named are stored, x, y and SAD in vectors from 3 x index on; where output
 * is asked for, the block's two output words are stored in output from 2 x index on. Of two entries with one index the later
 * wins, and everything else stays.
 *   1  a side below 2
 *   2  a side over 2,048, vectors_len not 3 x n, or a diagonal of 0 or less
 *   4  an index not from 0 to n - 1
 *   5  output asked for and output_len under 2 x n, or bests_len not 5 x indices_len
 *   7  a best's component beyond i16 */
uint32_t hirupango_finish(int32_t nx, int32_t ny, const int32_t *indices, size_t indices_len, const int32_t *bests,
                          size_t bests_len, int32_t diagonal, bool output_asked, int32_t *vectors, size_t vectors_len,
                          int32_t *output, size_t output_len);

#ifdef __cplusplus
}
#endif

#endif
