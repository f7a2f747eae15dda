/* What a lent word holds before a call: a mark of its own, so that one which was moved shows too. */
#ifndef MARKS_H
#define MARKS_H
#include <stddef.h>
#include <stdint.h>

static inline int32_t mark_of(size_t i) {
    return (int32_t)((uint32_t)i * 2654435761u ^ 0x5a5a5a5au);
}

#endif
