/* A library that is loaded before a program and has calls of it fail, or move less than they could, or counts them. The environment
   says which:

       FAULT_CALL    alloc, block, read, write or thread: the calls that are counted, from 1; of alloc malloc, calloc and realloc
                     together, of block malloc alone, and of thread pthread_create
       FAULT_FD      of reads and writes, the descriptor whose calls are counted
       FAULT_FIRST   the first of these calls that is met, and
       FAULT_LAST    the last one
       FAULT_HOW     what becomes of a call that is met: fail (ENOMEM, EIO or EAGAIN), interrupt (EINTR), short, where it moves one
                     byte, or pass, where nothing is changed
       FAULT_TELL    the descriptor of a file that has in the end a number of eight bytes for each call that was met: the bytes that
                     it asked for, or was to move
*/
#define _GNU_SOURCE
#include <dlfcn.h>
#include <errno.h>
#include <pthread.h>
#include <stddef.h>
#include <stdlib.h>
#include <string.h>
#include <sys/syscall.h>
#include <unistd.h>

/* The C library's own, which it gives beside the names that are taken here. */
extern void *__libc_malloc(size_t size);
extern void *__libc_calloc(size_t count, size_t size);
extern void *__libc_realloc(void *block, size_t size);

enum call { NONE, ALLOC, BLOCK, READ, WRITE, THREAD };
enum how { FAIL, INTERRUPT, SHORT, PASS };

typedef int create(pthread_t *, const pthread_attr_t *, void *(*)(void *), void *);

static enum call counted = NONE;
static enum how how = PASS;
static int descriptor, tell;
static long first, last, calls;
static create *library_create;

static long number(const char *name) {
    const char *word = getenv(name);
    return word ? atol(word) : 0;
}

/* The place of a word among others, of which the last one is NULL. */
static int place(const char *word, const char *const *words) {
    int at = 0;
    while (words[at] && strcmp(word, words[at]))
        at++;
    return at;
}

__attribute__((constructor)) static void start(void) {
    static const char *const names[] = {"alloc", "block", "read", "write", "thread", NULL};
    static const char *const ways[] = {"fail", "interrupt", "short", "pass", NULL};
    const char *call = getenv("FAULT_CALL");
    const char *way = getenv("FAULT_HOW");
    library_create = (create *)dlsym(RTLD_NEXT, "pthread_create");
    if (!call || !way)
        return;
    descriptor = (int)number("FAULT_FD");
    tell = (int)number("FAULT_TELL");
    first = number("FAULT_FIRST");
    last = number("FAULT_LAST");
    how = (enum how)place(way, ways);
    counted = (enum call)(ALLOC + place(call, names));
}

/* Whether a call of this kind is one that is met. It asks for so many bytes, or is to move them. */
static int is_met(enum call call, int fd, size_t size) {
    if (call != counted || ((call == READ || call == WRITE) && fd != descriptor))
        return 0;
    long count = __atomic_add_fetch(&calls, 1, __ATOMIC_SEQ_CST);
    if (count < first || last < count)
        return 0;
    /* Each call has a place of its own, as several threads may come here at one time. */
    syscall(SYS_pwrite64, tell, &size, sizeof size, (off_t)((count - first) * sizeof size));
    return how != PASS;
}

static int is_refused(enum call call, size_t size) {
    if (!is_met(call, 0, size))
        return 0;
    errno = ENOMEM;
    return 1;
}

void *malloc(size_t size) {
    return is_refused(ALLOC, size) || is_refused(BLOCK, size) ? NULL : __libc_malloc(size);
}

void *calloc(size_t count, size_t size) {
    return is_refused(ALLOC, count * size) ? NULL : __libc_calloc(count, size);
}

void *realloc(void *block, size_t size) {
    return is_refused(ALLOC, size) ? NULL : __libc_realloc(block, size);
}

int pthread_create(pthread_t *thread, const pthread_attr_t *attributes, void *(*body)(void *), void *given) {
    return is_met(THREAD, 0, 0) ? EAGAIN : library_create(thread, attributes, body, given);
}

/* A read or a write, by the number that the system knows it by. */
static ssize_t move(enum call call, long number, int fd, void *bytes, size_t size) {
    if (is_met(call, fd, size)) {
        if (how != SHORT) {
            errno = how == INTERRUPT ? EINTR : EIO;
            return -1;
        }
        size = size < 1 ? 0 : 1;
    }
    return syscall(number, fd, bytes, size);
}

ssize_t read(int fd, void *into, size_t size) {
    return move(READ, SYS_read, fd, into, size);
}

ssize_t write(int fd, const void *from, size_t size) {
    return move(WRITE, SYS_write, fd, (void *)from, size);
}
