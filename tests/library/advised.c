/* Loaded before a program's libraries (LD_PRELOAD), it says to the file that ADVISED names of how many bytes of a
 * mapped file, from its first on, the system shall read none ahead, and which bytes the program asks for ahead (their
 * first byte and the byte after the last); and what lines the program has read: black, white, and the samples as they
 * are. It passes all calls on. */
#define _GNU_SOURCE
#include <dlfcn.h>
#include <ldvbi.h>
#include <stdio.h>
#include <stdlib.h>
#include <sys/mman.h>

static const char *mapped;

static void say(const char *what, const void *from, size_t number) {
    FILE *file = fopen(getenv("ADVISED"), "a");
    fprintf(file, "%s %zu %zu\n", what, (size_t)((const char *)from - mapped), number);
    fclose(file);
}

/* A program speaks of the whole mapping before it asks for parts of it. */
int madvise(void *address, size_t length, int advice) {
    __typeof__(madvise) *next = dlsym(RTLD_NEXT, "madvise");
    if (advice == MADV_RANDOM) say("random", mapped = address, length);
    if (advice == MADV_WILLNEED) say("asks", address, (size_t)((const char *)address - mapped) + length);
    return next(address, length, advice);
}

uint32_t ldvbi_recover_rows(uint32_t system, uint32_t black, uint32_t white, const void *samples, size_t length,
                            const LdvbiErased *erased, size_t erased_count, LdvbiFieldReadings *readings) {
    __typeof__(ldvbi_recover_rows) *next = dlsym(RTLD_NEXT, "ldvbi_recover_rows");
    FILE *file = fopen(getenv("ADVISED"), "a");
    fprintf(file, "%u %u ", black, white);
    fwrite(samples, 1, length, file);
    fclose(file);
    return next(system, black, white, samples, length, erased, erased_count, readings);
}
