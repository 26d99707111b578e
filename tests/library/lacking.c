/* Loaded before a program's libraries (LD_PRELOAD), it is what the environment has as LACKING: a library of another
 * `interface`, a system without `memory` for a field of NTSC, or a file that has lost its `end` when it is read. */
#define _GNU_SOURCE
#include <dlfcn.h>
#include <ldvbi.h>
#include <stdlib.h>
#include <string.h>
#include <unistd.h>

void *__libc_malloc(size_t size);

static int lacks(const char *what) {
    const char *lacking = getenv("LACKING");
    return lacking && strcmp(lacking, what) == 0;
}

uint32_t ldvbi_abi(void) {
    return lacks("interface") ? LDVBI_ABI + 1 : LDVBI_ABI;
}

void *malloc(size_t size) {
    return size == 478660 && lacks("memory") ? NULL : __libc_malloc(size);
}

ssize_t pread(int file, void *bytes, size_t count, off_t at) {
    __typeof__(pread) *next = dlsym(RTLD_NEXT, "pread");
    return lacks("end") ? 0 : next(file, bytes, count, at);
}
