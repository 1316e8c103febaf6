#!/bin/bash
# What the built program does where memory is refused: the rows of memory.py, with each of their allocations refused
# in turn.
#
#     memory.sh [PROGRAM]     the program is crates/ct_main/out/ct_main where none is named; bin/build makes it
#
# It takes its memory by the C library's malloc, calloc, realloc and what stands beside them. A library that is loaded
# before that one has these functions too: it counts their calls while main runs, so not the loader's own, answers
# those from REFUSED_FROM to REFUSED_TO with want of memory, and appends a byte to the file REFUSED_LOG for each call,
# '-' for a refused one and '+' for another. It needs cc, nm and python3. Status 0: all runs are as expected.
here=$(cd "$(dirname "$0")" && pwd) || exit 1
program=$(realpath "${1:-$here/../crates/ct_main/out/ct_main}") || exit 1
work=$(mktemp -d) || exit 1
trap 'rm -rf "$work"' EXIT

if [ ! -x "$program" ]; then
    echo "memory: there is no program at $program; bin/build makes it" >&2
    exit 1
fi
taken=$(nm -D --undefined-only "$program" | sed 's/.* //; s/@.*//')
if ! grep -qx malloc <<< "$taken"; then
    echo "memory: $program has a malloc of its own, of which nothing can be refused here" >&2
    exit 1
fi
if others=$(grep -xE 'mmap|mmap64|mremap|brk|sbrk|memalign|valloc|pvalloc|reallocarray' <<< "$taken"); then
    echo "memory: $program takes memory by $others too, which isn't refused here" >&2
    exit 1
fi

cc -shared -fPIC -O2 -Wall -Werror -o "$work/refusing.so" -x c - <<'C' || exit 1
#define _GNU_SOURCE
#include <dlfcn.h>
#include <errno.h>
#include <fcntl.h>
#include <stdlib.h>
#include <unistd.h>

void *__libc_malloc(size_t size);
void *__libc_calloc(size_t count, size_t size);
void *__libc_realloc(void *block, size_t size);
void *__libc_memalign(size_t alignment, size_t size);

typedef int Main(int, char **, char **);
typedef int Start(Main *, int, char **, void (*)(void), void (*)(void), void (*)(void), void *);

static unsigned long first, last, made;
static int file = -1;
static int is_counting;
static Main *inner;

static int is_refused(void) {
    if (!is_counting)
        return 0;
    made++;
    int refused = first <= made && made <= last;
    if (write(file, refused ? "-" : "+", 1) != 1)
        _exit(99);
    if (refused)
        errno = ENOMEM;
    return refused;
}

void *malloc(size_t size) {
    return is_refused() ? NULL : __libc_malloc(size);
}

void *calloc(size_t count, size_t size) {
    return is_refused() ? NULL : __libc_calloc(count, size);
}

void *realloc(void *block, size_t size) {
    return is_refused() ? NULL : __libc_realloc(block, size);
}

void *aligned_alloc(size_t alignment, size_t size) {
    return is_refused() ? NULL : __libc_memalign(alignment, size);
}

int posix_memalign(void **block, size_t alignment, size_t size) {
    if (is_refused())
        return ENOMEM;
    *block = __libc_memalign(alignment, size);
    return *block ? 0 : ENOMEM;
}

static int counted(int argc, char **argv, char **environment) {
    is_counting = 1;
    int status = inner(argc, argv, environment);
    is_counting = 0;
    return status;
}

int __libc_start_main(Main *main, int argc, char **argv, void (*init)(void), void (*fini)(void),
                      void (*unload)(void), void *stack) {
    Start *start = (Start *)dlsym(RTLD_NEXT, "__libc_start_main");
    first = strtoul(getenv("REFUSED_FROM"), NULL, 10);
    last = strtoul(getenv("REFUSED_TO"), NULL, 10);
    file = open(getenv("REFUSED_LOG"), O_WRONLY | O_CREAT | O_APPEND | O_CLOEXEC, 0600);
    inner = main;
    return start(counted, argc, argv, init, fini, unload, stack);
}
C
python3 "$here/memory.py" "$program" "$work"
