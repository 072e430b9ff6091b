/* For include/hostile, which sees its memory twice: here both views are one, since the recorder knows memory by its
 * address. It is linked by --wrap=mmap. */
#define _GNU_SOURCE
#include <stddef.h>
#include <sys/mman.h>

void *__real_mmap(void *at, size_t bytes, int protection, int flags, int file, off_t from);
void *__wrap_mmap(void *at, size_t bytes, int protection, int flags, int file, off_t from);

void *__wrap_mmap(void *at, size_t bytes, int protection, int flags, int file, off_t from) {
    static void *writable;
    static int of = -1;
    if (file >= 0 && file == of && protection == PROT_READ)
        return writable;
    void *made = __real_mmap(at, bytes, protection, flags, file, from);
    if (file >= 0 && protection != PROT_READ)
        writable = made, of = file;
    return made;
}
