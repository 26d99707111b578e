/* Says whether a TBC file has a whole side, or why it hasn't, and where its numbers and fields don't go on together.
 * For each gap it prints the kind, how many fields, and the two fields around it, from 1, with their numbers: pictures,
 * or times as pictures from the disc's beginning; and each number that is set aside, since it stands in the place of
 * another. With the word `cut` the capture may end before the disc does.
 * Status 0: it is whole; 1: it isn't; 4: it can't be told; 2: something can't be read, and standard error says what.
 *
 *     cc -o whole whole.c -lldvbi && ./whole side.tbc NTSC 16384 51200
 *
 * It is C++ as well: c++ -x c++ -o whole whole.c -lldvbi */
#define _DEFAULT_SOURCE
#include <fcntl.h>
#include <ldvbi.h>
#include <stdio.h>
#include <stdlib.h>
#include <string.h>
#include <sys/mman.h>
#include <unistd.h>

static const char *const reasons[] = {
    "fields are lost", "too many fields", "numbers go back", "another side begins", "it begins late",
    "fields are swapped", "first and last number don't fit", "no numbers", "no lead-out", "its beginning isn't seen",
    "many numbers are in doubt", "fields may be lost", "fields don't belong there", "fields are padding",
    "over 100 fields without a number"};
static const char *const kinds[] = {
    "unknown", "lost", "held", "back", "still", "joined", "open", "inserted", "replaced"};
enum { ROOM = 10, BLOCK = 64, REASONS = sizeof reasons / sizeof *reasons, KINDS = sizeof kinds / sizeof *kinds };

static void require(int holds, const char *fault) {
    if (!holds) exit((fprintf(stderr, "whole: %s\n", fault), 2));
}
static void check(uint32_t status) { require(status == LDVBI_DONE, ldvbi_status_text(status)); }

static uint32_t parse_number(const char *text) {
    size_t length = strspn(text, "0123456789");
    require(0 < length && length < 10 && text[length] == '\0', "a level is not a whole number");
    return (uint32_t)strtoul(text, NULL, 10);
}

/* Asks the system to fetch the pages with lines 16 to 18 of these fields, and doesn't wait for them. */
static void fetch(uint32_t system, uint8_t *side, size_t from, size_t to) {
    size_t page = (size_t)sysconf(_SC_PAGESIZE), line = ldvbi_line_bytes(system);
    for (size_t i = from; i < to; i++) {
        size_t rows = i * ldvbi_field_bytes(system) + 15 * line, begin = rows / page * page;
        madvise(side + begin, rows + 3 * line - begin, MADV_WILLNEED);
    }
}

/* Reads all fields, a BLOCK of them at a time, with the next one's pages fetched meanwhile. From a disk that takes a
 * quarter of the time. */
static void read_side(uint32_t system, uint32_t black, uint32_t white, uint8_t *side, size_t fields,
                      LdvbiFieldReadings *read) {
    size_t bytes = ldvbi_field_bytes(system);
    for (size_t from = 0, to, next; from < fields; from = to) {
        to = fields - from < BLOCK ? fields : from + BLOCK;
        next = fields - to < BLOCK ? fields : to + BLOCK;
        if (from == 0) fetch(system, side, 0, to);
        fetch(system, side, to, next);
        check(ldvbi_recover_fields(system, black, white, side + from * bytes, (to - from) * bytes, NULL, 0,
                                   read + from, to - from));
    }
}

/* Prints the numbers that were set aside: what each field shows instead of its own. */
static void print_aside(const LdvbiNumber *numbers, const LdvbiNumber *left, size_t fields) {
    for (size_t i = 0; i < fields; i++)
        if (numbers[i].state != left[i].state) printf("aside: field %zu has %u\n", i + 1, (unsigned)numbers[i].number);
}

/* Prints the answer and the first gaps, ROOM at most. Returns the program's status. */
static int print(const LdvbiSide *found, const LdvbiGap *gaps) {
    int is_whole = found->verdict == LDVBI_WHOLE, is_told = found->verdict != LDVBI_CANNOT_TELL;
    printf("whole: %s", is_whole ? "yes" : is_told ? "no" : "can't tell");
    for (int i = 0, said = 0; i < REASONS; i++) /* a later library may have more */
        if (found->reasons >> i & 1) printf("%s %s", said++ == 0 ? ":" : ",", reasons[i]);
    putchar('\n');
    for (size_t i = 0; i < found->tally.gaps && i < ROOM; i++)
        printf("%s %llu: field %zu has %u, field %zu has %u\n", kinds[gaps[i].kind < KINDS ? gaps[i].kind : 0],
               (unsigned long long)gaps[i].fields, gaps[i].after + 1, (unsigned)gaps[i].from, gaps[i].before + 1,
               (unsigned)gaps[i].to);
    if (found->tally.gaps > ROOM) printf("gaps left out: %zu\n", found->tally.gaps - ROOM);
    return is_whole ? 0 : is_told ? 1 : 4;
}

int main(int count, char **words) {
    int may_end = count == 6 && strcmp(words[5], "cut") == 0;
    require(count == 5 || may_end, "usage: whole FILE NTSC|PAL BLACK WHITE [cut]");
    uint32_t system = strcmp(words[2], "NTSC") == 0 ? LDVBI_NTSC : strcmp(words[2], "PAL") == 0 ? LDVBI_PAL : 0;
    uint32_t black = parse_number(words[3]), white = parse_number(words[4]), pace;
    check(ldvbi_recover_fields(system, black, white, NULL, 0, NULL, 0, NULL, 0)); /* no fields: tests the numbers */
    int file = open(words[1], O_RDONLY);
    size_t bytes = ldvbi_field_bytes(system), fields = (size_t)lseek(file, 0, SEEK_END) / bytes, aside;
    void *side = mmap(NULL, fields * bytes, PROT_READ, MAP_SHARED, file, 0);
    LdvbiFieldReadings *read = (LdvbiFieldReadings *)calloc(fields, sizeof *read);
    LdvbiSightings *seen = (LdvbiSightings *)calloc(fields, sizeof *seen);
    LdvbiNumber *numbers = (LdvbiNumber *)calloc(fields, sizeof *numbers);
    uint32_t *ends = (uint32_t *)calloc(fields, sizeof *ends);
    LdvbiNumber *left = (LdvbiNumber *)calloc(fields, sizeof *left);
    LdvbiGap *gaps = (LdvbiGap *)calloc(fields, sizeof *gaps);
    require(side != MAP_FAILED && read && seen && numbers && ends && left && gaps,
            "no field of the file can be mapped");
    madvise(side, fields * bytes, MADV_RANDOM); /* few pages of a field are read: read none ahead */
    read_side(system, black, white, (uint8_t *)side, fields, read);
    check(ldvbi_judge_ends(read, fields, ends, fields));
    LdvbiSide found, dropped;
    found.reasons = LDVBI_NO_NUMBERS;
    for (uint32_t counted = LDVBI_PICTURES; counted <= LDVBI_TIMES && found.reasons == LDVBI_NO_NUMBERS; counted++) {
        check(ldvbi_find_pace(system, counted, read, fields, seen, fields, &pace));
        check(ldvbi_judge(system, counted, pace, read, fields, seen, fields, numbers, fields));
        LdvbiSideRule rule = {system, counted, pace, LDVBI_FIND_BOTH, {LDVBI_PLAIN, 0, 0}};
        LdvbiClock clock;
        check(ldvbi_find_clock(&rule, numbers, fields, &clock));
        rule.clock = clock;
        check(ldvbi_judge_side(&rule, (uint32_t)may_end, seen, fields, numbers, fields, ends, fields, gaps, fields,
                               &found));
        check(ldvbi_set_aside(&rule, gaps, found.tally.gaps, numbers, fields, left, fields, &aside));
        /* a few minutes of an NTSC CLV disc don't show enough of drop-frame: what is whole by that is whole */
        rule.clock.kind = LDVBI_DROP_FRAME;
        check(ldvbi_judge_side(&rule, (uint32_t)may_end, seen, fields, numbers, fields, ends, fields, NULL, 0,
                               &dropped));
        if (dropped.verdict == LDVBI_WHOLE && system == LDVBI_NTSC && counted == LDVBI_TIMES) found = dropped;
    }
    int status = print(&found, gaps);
    print_aside(numbers, left, fields);
    return status;
}
