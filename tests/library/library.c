/* Prints the versions that the header has, whether the library is of this one, and the texts of numbers from 0 on. What
   the structs and the other numbers of the header mean, border.py takes from there. Then a handler leaves a call. */
#define _GNU_SOURCE
#include <ldvbi.h>
#include <setjmp.h>
#include <signal.h>
#include <stdio.h>
#include <string.h>
#include <sys/mman.h>
#include <unistd.h>

typedef const char *TextOf(uint32_t number);

static void print_known(const char *text)
{
    if (strcmp(text, "unknown") != 0) puts(text);
}

static sigjmp_buf before;

static void leave(int number)
{
    siglongjmp(before, number);
}

/* 2 where a call is left, since its file was cut off while it was mapped (SIGBUS), and the next one returns. */
static int calls_that_return(void)
{
    size_t field = ldvbi_field_bytes(LDVBI_NTSC);
    int file = fileno(tmpfile());
    LdvbiFieldReadings readings;
    volatile int returned = 0;
    void *mapped = mmap(NULL, field, PROT_READ | PROT_WRITE, MAP_SHARED, file, 0);

    signal(SIGBUS, leave);
    for (int is_whole = 0; is_whole <= 1; is_whole++)
        if (ftruncate(file, is_whole ? (off_t)field : 0) == 0 && sigsetjmp(before, 1) == 0)
            returned += ldvbi_read_field(LDVBI_NTSC, 1, 2, mapped, field, &readings) == LDVBI_DONE ? 1 + is_whole : 4;
    return returned;
}

int main(void)
{
    static TextOf *const texts[] = {
        ldvbi_status_text, ldvbi_cause_text, ldvbi_kind_text, ldvbi_format_text, ldvbi_state_text};

    printf("%d.%d.%d\n%s\n", LDVBI_VERSION_MAJOR, LDVBI_VERSION_MINOR, LDVBI_VERSION_PATCH, LDVBI_VERSION_TEXT);
    for (size_t i = 0; i < sizeof texts / sizeof *texts; i++) {
        for (uint32_t number = 0; number < 66000; number++) print_known(texts[i](number));
        for (int bit = 17; bit < 32; bit++) print_known(texts[i](1u << bit));
        print_known(texts[i](UINT32_MAX));
    }
    printf("%d\n", calls_that_return());
    return ldvbi_abi() != LDVBI_ABI || ldvbi_version() != LDVBI_VERSION;
}

/* Each part of a version counts, also one that is 0 in this one. */
#undef LDVBI_VERSION_MAJOR
#undef LDVBI_VERSION_MINOR
#undef LDVBI_VERSION_PATCH
#define LDVBI_VERSION_MAJOR 7
#define LDVBI_VERSION_MINOR 8
#define LDVBI_VERSION_PATCH 9
typedef char each_part_counts[LDVBI_VERSION == 7008009 ? 1 : -1];
