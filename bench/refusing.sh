# shellcheck shell=bash
# How the scripts beside it refuse a program memory; they source it. It wants a C compiler.

# Makes a library that refuses one block of memory, of those that a program asks the C library for: the one whose number
# is REFUSED, from 1, and none where that is 0. At its end the program writes how many it asked for to the file ASKED,
# where that is set. Sets `refuser` to it.
make_refuser() { # FOLDER
    refuser=$1/refuse.so
    cat >"$1/refuse.c" <<'C'
#include <errno.h>
#include <fcntl.h>
#include <stdio.h>
#include <stdlib.h>
#include <sys/syscall.h>
#include <unistd.h>

void *__libc_malloc(size_t size);
void *__libc_calloc(size_t count, size_t size);
void *__libc_realloc(void *block, size_t size);
void *__libc_memalign(size_t align, size_t size);

static long asked, refused = -1;

static int is_refused(void) {
    if (refused < 0) {
        const char *word = getenv("REFUSED");
        refused = word ? atol(word) : 0;
    }
    if (__atomic_add_fetch(&asked, 1, __ATOMIC_RELAXED) != refused) return 0;
    errno = ENOMEM;
    return 1;
}

void *malloc(size_t size) { return is_refused() ? NULL : __libc_malloc(size); }

void *calloc(size_t count, size_t size) { return is_refused() ? NULL : __libc_calloc(count, size); }

void *realloc(void *block, size_t size) { return is_refused() ? NULL : __libc_realloc(block, size); }

void *aligned_alloc(size_t align, size_t size) { return is_refused() ? NULL : __libc_memalign(align, size); }

int posix_memalign(void **block, size_t align, size_t size) {
    if (is_refused()) return ENOMEM;
    *block = __libc_memalign(align, size);
    return *block ? 0 : ENOMEM;
}

static void tell(void) {
    const char *file = getenv("ASKED");
    int to = file ? open(file, O_WRONLY | O_CREAT | O_TRUNC, 0600) : -1;
    if (to < 0) return;
    char text[32];
    int size = snprintf(text, sizeof text, "%ld\n", asked);
    if (write(to, text, size) != size) syscall(SYS_exit_group, 126);
    close(to);
}

/* The program ends at once, without the C library's own end, so this is where it tells. */
void _exit(int status) {
    tell();
    syscall(SYS_exit_group, status);
    __builtin_unreachable();
}
C
    cc -O1 -shared -fPIC -o "$refuser" "$1/refuse.c"
}
