/* Loaded before the C library (LD_PRELOAD), it refuses a program what the struct in the file SWEEP asks for. It counts there
 * what the program asks of the system: memory, threads, and reads and writes of the descriptors 0 and 1. */
#define _GNU_SOURCE
#include <dlfcn.h>
#include <errno.h>
#include <fcntl.h>
#include <pthread.h>
#include <stdatomic.h>
#include <stdint.h>
#include <stdlib.h>
#include <sys/mman.h>
#include <sys/syscall.h>
#include <unistd.h>

/* Numbers count from 1, and 0 refuses nothing; sweep.py has the same fields. */
struct sweep {
    uint64_t allocation;      /* the allocation that is refused .. */
    uint64_t all_after;       /* .. and, if this is not 0, all that come after it */
    uint64_t thread;          /* the start of a thread that is refused, or UINT64_MAX for all of them */
    uint64_t read, write;     /* the read and the write that fail .. */
    uint64_t error;           /* .. with this error */
    uint64_t longest;         /* how many bytes one read or write takes at most, or 0 for as many as there are */
    _Atomic uint64_t allocations, threads, reads, writes;
};

static struct sweep nothing, *sweep = &nothing;

void *__libc_malloc(size_t size);
void *__libc_calloc(size_t count, size_t size);
void *__libc_realloc(void *block, size_t size);
void *__libc_memalign(size_t alignment, size_t size);

__attribute__((constructor)) static void start(void) {
    const char *name = getenv("SWEEP");
    int file = name == NULL ? -1 : open(name, O_RDWR | O_CLOEXEC);
    void *page;
    if (file < 0) return;
    page = (void *)syscall(SYS_mmap, NULL, sizeof *sweep, PROT_READ | PROT_WRITE, MAP_SHARED, file, 0);
    if (page != MAP_FAILED) sweep = page;
    close(file);
}

static int is_refused(void) {
    uint64_t number = atomic_fetch_add(&sweep->allocations, 1) + 1;
    if (sweep->allocation == 0 || number < sweep->allocation) return 0;
    if (number > sweep->allocation && sweep->all_after == 0) return 0;
    errno = ENOMEM;
    return 1;
}

void *malloc(size_t size) {
    return is_refused() ? NULL : __libc_malloc(size);
}

void *calloc(size_t count, size_t size) {
    return is_refused() ? NULL : __libc_calloc(count, size);
}

void *realloc(void *block, size_t size) {
    return is_refused() ? NULL : __libc_realloc(block, size);
}

void *aligned_alloc(size_t alignment, size_t size) {
    return is_refused() ? NULL : __libc_memalign(alignment, size);
}

void *memalign(size_t alignment, size_t size) {
    return is_refused() ? NULL : __libc_memalign(alignment, size);
}

int posix_memalign(void **block, size_t alignment, size_t size) {
    void *made = is_refused() ? NULL : __libc_memalign(alignment, size);
    if (made == NULL) return ENOMEM;
    *block = made;
    return 0;
}

void *mmap(void *place, size_t length, int protection, int flags, int file, off_t offset) {
    if (is_refused()) return MAP_FAILED;
    return (void *)syscall(SYS_mmap, place, length, protection, flags, file, offset);
}

int pthread_create(pthread_t *thread, const pthread_attr_t *attributes, void *(*run)(void *), void *argument) {
    static int (*create)(pthread_t *, const pthread_attr_t *, void *(*)(void *), void *);
    uint64_t number = atomic_fetch_add(&sweep->threads, 1) + 1;
    if (number == sweep->thread || sweep->thread == UINT64_MAX) return EAGAIN;
    *(void **)&create = dlsym(RTLD_NEXT, "pthread_create");
    return create(thread, attributes, run, argument);
}

static size_t shortened(size_t length) {
    return sweep->longest != 0 && length > sweep->longest ? sweep->longest : length;
}

ssize_t read(int file, void *bytes, size_t length) {
    if (file == 0) {
        if (atomic_fetch_add(&sweep->reads, 1) + 1 == sweep->read) {
            errno = (int)sweep->error;
            return -1;
        }
        length = shortened(length);
    }
    return syscall(SYS_read, file, bytes, length);
}

ssize_t write(int file, const void *bytes, size_t length) {
    if (file == 1) {
        if (atomic_fetch_add(&sweep->writes, 1) + 1 == sweep->write) {
            errno = (int)sweep->error;
            return -1;
        }
        length = shortened(length);
    }
    return syscall(SYS_write, file, bytes, length);
}

ssize_t __write(int file, const void *bytes, size_t length) {
    return write(file, bytes, length);
}
