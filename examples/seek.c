/* Finds a picture, a time (0:59:29.07 is picture 7 of its second) or a chapter in a TBC file, and prints its first
 * field, from 1. It is sought by halving: 2 to 6 MB of 50 GB are fetched. So numbers and chapters have to rise, and on
 * a worn side one may be missed: to be sure that it isn't there, judge the whole side, as whole.c does. A misread
 * number isn't found. Status 1: not found; 2: something can't be read, and standard error says what. It is C++ as well.
 *     cc -o seek seek.c -lldvbi && ./seek side.tbc NTSC 16384 51200 12345     (or: chapter 3, or 0:59:29.07) */
#define _DEFAULT_SOURCE
#include <fcntl.h>
#include <ldvbi.h>
#include <stdio.h>
#include <stdlib.h>
#include <string.h>
#include <sys/mman.h>
#include <unistd.h>
static void require(int holds, const char *fault) { if (!holds) exit((fprintf(stderr, "seek: %s\n", fault), 2)); }
static void check(uint32_t status) { require(status == LDVBI_DONE, ldvbi_status_text(status)); }

static uint32_t parse_number(const char *text, uint32_t most) {
    size_t length = strspn(text, "0123456789");
    int is_number = 0 < length && length < 10 && text[length] == '\0' && strtoul(text, NULL, 10) <= most;
    require(is_number, "no level from 0 to 65535, picture from 0 to 79999, or chapter from 0 to 79");
    return (uint32_t)strtoul(text, NULL, 10);
}

static uint32_t parse_time(const char *text, uint32_t rate) { /* the pictures from the disc's beginning to it */
    uint32_t hour, minute, second, picture, is_plain = strspn(text, "0123456789:.") == strlen(text);
    char more;
    int count = sscanf(text, "%1u:%2u:%2u.%2u%c", &hour, &minute, &second, &picture, &more);
    require(is_plain && count == 4 && minute < 60 && second < 60 && picture < rate, "no time of a disc");
    return ((hour * 60 + minute) * 60 + second) * rate + picture;
}

int main(int count, char **words) {
    int is_chapter = count == 7 && strcmp(words[5], "chapter") == 0;
    require(count == 6 || is_chapter, "usage: seek FILE NTSC|PAL BLACK WHITE NUMBER|H:MM:SS.PP|chapter N");
    uint32_t system = strcmp(words[2], "NTSC") == 0 ? LDVBI_NTSC : strcmp(words[2], "PAL") == 0 ? LDVBI_PAL : 0;
    uint32_t black = parse_number(words[3], 65535), white = parse_number(words[4], 65535);
    int is_time = !is_chapter && strchr(words[5], ':') != NULL;
    uint32_t wanted = is_time ? parse_time(words[5], system == LDVBI_NTSC ? 30 : 25)
                              : parse_number(words[count - 1], is_chapter ? 79 : 79999);
    check(ldvbi_recover_fields(system, black, white, NULL, 0, NULL, 0, NULL, 0)); /* tests the numbers */
    int file = open(words[1], O_RDONLY);
    size_t fields = (size_t)lseek(file, 0, SEEK_END) / ldvbi_field_bytes(system);
    size_t length = fields * ldvbi_field_bytes(system);
    void *mapped = mmap(NULL, length, PROT_READ, MAP_SHARED, file, 0);
    require(mapped != MAP_FAILED, "no field of the file can be mapped");
    madvise(mapped, length, MADV_RANDOM); /* few pages are read: read none ahead */
    const uint8_t *bytes = (const uint8_t *)mapped;
    LdvbiPlace place;
    LdvbiSought sought;
    if (is_chapter) check(ldvbi_seek_chapter(system, black, white, bytes, length, wanted, &place));
    else check(ldvbi_seek(system, black, white, is_time ? LDVBI_TIMES : LDVBI_PICTURES, LDVBI_FIND_PACE, bytes, length,
                          wanted, &sought));
    size_t field = is_chapter ? place.field : sought.field;
    if (field < fields) printf("field %zu\n", field + 1);
    else puts("not found");
    require(fflush(stdout) == 0, "the answer can't be written");
    return field < fields ? 0 : 1;
}
