/* Bytes for planes, however long a plane is: some that planning is lent and never reads, since a read in them would end the
 * program, and some that evaluating may read, all 0. No one can write to either. */
#ifndef UNREAD_H
#define UNREAD_H
#include <stddef.h>
#include <stdint.h>

void *mmap(void *at, size_t n, int rights, int flags, int file, long from);

#define MOST_UNREAD ((size_t)1 << 31)

static inline const uint8_t *mapped_bytes(int rights) {
    enum { PRIVATE = 2, ANONYMOUS = 0x20, NO_RESERVE = 0x4000 };
    return mmap(NULL, MOST_UNREAD, rights, PRIVATE | ANONYMOUS | NO_RESERVE, -1, 0);
}

static inline const uint8_t *unread_bytes(void) {
    enum { NO_RIGHTS = 0 };
    static const uint8_t *bytes;
    if (!bytes) bytes = mapped_bytes(NO_RIGHTS);
    return bytes;
}

static inline const uint8_t *zero_bytes(void) {
    enum { MAY_READ = 1 };
    static const uint8_t *bytes;
    if (!bytes) bytes = mapped_bytes(MAY_READ);
    return bytes;
}

#endif
