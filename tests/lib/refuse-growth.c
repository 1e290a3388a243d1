/*
 * Makes one allocation fail in the program into which it is loaded (LD_PRELOAD): the one whose number, counted from 1 over all
 * threads, is REFUSE_GROWTH. Only allocations of at least REFUSE_SIZE bytes count. The file that GROWTHS names, 8 bytes long, has their
 * number, however the program ends.
 * tests/memory builds and uses it.
 */
#include <errno.h>
#include <fcntl.h>
#include <stdatomic.h>
#include <stddef.h>
#include <stdlib.h>
#include <sys/mman.h>
#include <unistd.h>

void *__libc_malloc(size_t);
void *__libc_calloc(size_t, size_t);
void *__libc_realloc(void *, size_t);
void *__libc_memalign(size_t, size_t);

static atomic_ulong *growths; /* NULL before the program begins, and if there is no such file */
static unsigned long refused, least;

__attribute__((constructor)) static void begin(void)
{
    const char *number = getenv("REFUSE_GROWTH"), *size = getenv("REFUSE_SIZE"), *name = getenv("GROWTHS");
    int file = name ? open(name, O_RDWR) : -1;
    if (file < 0)
        return;
    void *counted = mmap(NULL, sizeof *growths, PROT_READ | PROT_WRITE, MAP_SHARED, file, 0);
    close(file);
    refused = number ? strtoul(number, NULL, 10) : 0;
    least = size ? strtoul(size, NULL, 10) : 0;
    growths = counted == MAP_FAILED ? NULL : counted;
}

static int is_refused(size_t size)
{
    if (growths == NULL || size < least || atomic_fetch_add(growths, 1) + 1 != refused)
        return 0;
    errno = ENOMEM;
    return 1;
}

void *malloc(size_t size) { return is_refused(size) ? NULL : __libc_malloc(size); }
void *calloc(size_t count, size_t size) { return is_refused(count * size) ? NULL : __libc_calloc(count, size); }
void *realloc(void *block, size_t size) { return is_refused(size) ? NULL : __libc_realloc(block, size); }
void *memalign(size_t alignment, size_t size) { return is_refused(size) ? NULL : __libc_memalign(alignment, size); }
void *aligned_alloc(size_t alignment, size_t size) { return memalign(alignment, size); }

int posix_memalign(void **block, size_t alignment, size_t size)
{
    void *made = memalign(alignment, size);
    if (made == NULL)
        return ENOMEM;
    *block = made;
    return 0;
}
