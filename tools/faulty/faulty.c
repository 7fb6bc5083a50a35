// Stands before the C library (LD_PRELOAD) and lets calls of a program fail, for tools/faults. What fails is said in the environment:
//
//     FAULTY_CALL    alloc, read (of standard input), write (to standard output) or tell (a write to standard error)
//     FAULTY_AT      how many calls of that kind go through before one fails; none fails where this is not set
//     FAULTY_COUNT   how many calls fail from there on; 1 where this is not set
//     FAULTY_ERROR   the errno of a read or a write that fails; with 0 it takes nothing and answers 0
//     FAULTY_PIECE   how many bytes a read or a write takes at most
//     FAULTY_NOTE    a descriptor of a file in which struct note is kept
#define _GNU_SOURCE
#include <errno.h>
#include <stdatomic.h>
#include <stdint.h>
#include <stdlib.h>
#include <string.h>
#include <sys/mman.h>
#include <sys/syscall.h>
#include <unistd.h>

void *__libc_malloc(size_t);
void *__libc_calloc(size_t, size_t);
void *__libc_realloc(void *, size_t);
void *__libc_memalign(size_t, size_t);

enum call { ALLOC, READ, WRITE, TELL, CALLS };
static const char *const names[CALLS] = {"alloc", "read", "write", "tell"};

// How many calls of each kind there were, and how many were refused.
struct note {
    _Atomic uint64_t calls[CALLS];
    _Atomic uint64_t refused;
};

static struct note own, *note = &own;
static enum call failing = CALLS;
static uint64_t first, last;
static size_t piece = SIZE_MAX;
static int error;

static uint64_t number(const char *name, uint64_t otherwise) {
    const char *text = getenv(name);
    return text ? strtoull(text, NULL, 10) : otherwise;
}

__attribute__((constructor)) static void begin(void) {
    const char *call = getenv("FAULTY_CALL");
    const char *file = getenv("FAULTY_NOTE");
    if (file) {
        void *place = mmap(NULL, sizeof own, PROT_READ | PROT_WRITE, MAP_SHARED, atoi(file), 0);
        if (place == MAP_FAILED) _exit(126);
        note = place;
    }
    piece = number("FAULTY_PIECE", SIZE_MAX);
    error = (int)number("FAULTY_ERROR", EIO);
    first = number("FAULTY_AT", UINT64_MAX);
    last = first + number("FAULTY_COUNT", 1);
    if (first == UINT64_MAX || !call) return;
    for (enum call kind = 0; kind < CALLS; kind++)
        if (!strcmp(call, names[kind])) failing = kind;
}

// Counts a call, and answers whether it is to fail.
static int is_refused(enum call kind) {
    uint64_t place = atomic_fetch_add(&note->calls[kind], 1);
    if (kind != failing || place < first || place >= last) return 0;
    atomic_fetch_add(&note->refused, 1);
    return 1;
}

static int lacks_memory(void) {
    if (!is_refused(ALLOC)) return 0;
    errno = ENOMEM;
    return 1;
}

void *malloc(size_t size) { return lacks_memory() ? NULL : __libc_malloc(size); }

void *calloc(size_t count, size_t size) { return lacks_memory() ? NULL : __libc_calloc(count, size); }

void *realloc(void *old, size_t size) { return lacks_memory() ? NULL : __libc_realloc(old, size); }

void *memalign(size_t align, size_t size) { return lacks_memory() ? NULL : __libc_memalign(align, size); }

void *aligned_alloc(size_t align, size_t size) { return memalign(align, size); }

int posix_memalign(void **to, size_t align, size_t size) {
    void *place = memalign(align, size);
    if (!place) return ENOMEM;
    *to = place;
    return 0;
}

static ssize_t failed(void) {
    if (!error) return 0;
    errno = error;
    return -1;
}

ssize_t read(int file, void *to, size_t count) {
    if (file == STDIN_FILENO) {
        if (is_refused(READ)) return failed();
        if (count > piece) count = piece;
    }
    return syscall(SYS_read, file, to, count);
}

ssize_t write(int file, const void *from, size_t count) {
    if (file == STDOUT_FILENO || file == STDERR_FILENO) {
        if (is_refused(file == STDOUT_FILENO ? WRITE : TELL)) return failed();
        if (count > piece) count = piece;
    }
    return syscall(SYS_write, file, from, count);
}

ssize_t __write(int file, const void *from, size_t count) { return write(file, from, count); }
