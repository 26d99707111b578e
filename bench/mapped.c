/* Times the words of a stream, NTSC, by several ways in turn: the library over a mapping, with each advice to the
   system; the three lines alone by pread; their pages only touched; and a plain reader in C that reads each field.
   usage: mapped draw FILE FIELDS | stream FILE warm|cold ROUNDS */
#define _GNU_SOURCE
#include "plain.h"
#include <fcntl.h>
#include <sys/mman.h>
#include <sys/stat.h>
#include <unistd.h>

enum { BLOCK = 64, BEGIN = 15 * LINE, END = 18 * LINE, PAGE = 4096, MOST_ROUNDS = 99 };

typedef struct {
    int file;
    size_t size, fields;
} Stream;

/* ---- The ways. Each returns how many lines show a word */

static size_t words_of(const LdvbiFieldReadings *readings, size_t count)
{
    size_t words = 0;

    for (size_t i = 0; i < count; i++)
        for (size_t line = 0; line < 3; line++)
            words += readings[i].lines[line].word != 0;
    return words;
}

static uint8_t *mapped(const Stream *stream)
{
    uint8_t *bytes = mmap(NULL, stream->size, PROT_READ, MAP_SHARED, stream->file, 0);

    if (bytes == MAP_FAILED)
        exit(2);
    return bytes;
}

/* Asks the system to fetch the pages with lines 16 to 18 of these fields, and doesn't wait for them. */
static void want(uint8_t *bytes, size_t from, size_t to)
{
    for (size_t i = from; i < to; i++) {
        size_t begin = (i * FIELD + BEGIN) / PAGE * PAGE;

        madvise(bytes + begin, i * FIELD + END - begin, MADV_WILLNEED);
    }
}

static size_t read_blocks(const Stream *stream, uint8_t *bytes, int is_wanted)
{
    LdvbiFieldReadings readings[BLOCK];
    size_t words = 0, wanted = 0;

    for (size_t begin = 0; begin < stream->fields; begin += BLOCK) {
        size_t count = stream->fields - begin < BLOCK ? stream->fields - begin : BLOCK;
        size_t ahead = stream->fields - begin < 2 * BLOCK ? stream->fields : begin + 2 * BLOCK;

        if (is_wanted)
            want(bytes, wanted, ahead);
        wanted = ahead;
        if (ldvbi_read_fields(LDVBI_NTSC, 16384, 51200, bytes + begin * FIELD, count * FIELD, readings, count))
            exit(2);
        words += words_of(readings, count);
    }
    return words;
}

static size_t read_advised(const Stream *stream, int advice, int is_wanted)
{
    uint8_t *bytes = mapped(stream);

    madvise(bytes, stream->size, advice);
    size_t words = read_blocks(stream, bytes, is_wanted);
    munmap(bytes, stream->size);
    return words;
}

static size_t read_wanted(const Stream *stream)
{
    return read_advised(stream, MADV_RANDOM, 1);
}

static size_t read_at_random(const Stream *stream)
{
    return read_advised(stream, MADV_RANDOM, 0);
}

static size_t read_unadvised(const Stream *stream)
{
    return read_advised(stream, MADV_NORMAL, 0);
}

static size_t read_by_pread(const Stream *stream)
{
    uint8_t rows[END - BEGIN];
    LdvbiFieldReadings readings;
    size_t words = 0;

    for (size_t i = 0; i < stream->fields; i++) {
        if (pread(stream->file, rows, sizeof rows, (off_t)(i * FIELD + BEGIN)) != (ssize_t)sizeof rows ||
            ldvbi_read_rows(LDVBI_NTSC, 16384, 51200, rows, sizeof rows, &readings))
            exit(2);
        words += words_of(&readings, 1);
    }
    return words;
}

/* One byte of each page, wanted ahead as by the library; as many words as there are lines, since all are drawn. */
static size_t touch(const Stream *stream)
{
    uint8_t *bytes = mapped(stream);
    volatile uint8_t seen;

    madvise(bytes, stream->size, MADV_RANDOM);
    for (size_t begin = 0, wanted = 0; begin < stream->fields; begin += BLOCK) {
        size_t end = stream->fields - begin < BLOCK ? stream->fields : begin + BLOCK;
        size_t ahead = stream->fields - begin < 2 * BLOCK ? stream->fields : begin + 2 * BLOCK;

        want(bytes, wanted, ahead);
        wanted = ahead;
        for (size_t i = begin; i < end; i++)
            for (size_t at = (i * FIELD + BEGIN) / PAGE * PAGE; at < i * FIELD + END; at += PAGE)
                seen = bytes[at];
    }
    (void)seen;
    munmap(bytes, stream->size);
    return 3 * stream->fields;
}

/* A read of each whole field, and lines 16, 17 and 18 of it sample by sample. */
static size_t read_plainly(const Stream *stream)
{
    static uint8_t field[FIELD];
    size_t words = 0;

    for (size_t i = 0; i < stream->fields; i++) {
        if (pread(stream->file, field, FIELD, (off_t)(i * FIELD)) != FIELD)
            exit(2);
        for (size_t row = 15; row < 18; row++)
            words += plain_word(field + row * LINE) != 0;
    }
    return words;
}

static const struct {
    const char *name;
    size_t (*read)(const Stream *stream);
} ways[] = {
    {"pages touched", touch},           {"mapped, WILLNEED", read_wanted}, {"mapped, RANDOM", read_at_random},
    {"mapped, no advice", read_unadvised}, {"pread of three lines", read_by_pread}, {"plain reader", read_plainly},
};
enum { WAYS = sizeof ways / sizeof *ways };

/* ---- The rounds */

/* How many of the file's pages are in memory. */
static size_t resident(const Stream *stream)
{
    size_t pages = (stream->size + PAGE - 1) / PAGE, count = 0;
    uint8_t *bytes = mapped(stream);
    unsigned char *here = malloc(pages);

    if (here == NULL || mincore(bytes, stream->size, here) != 0)
        exit(2);
    for (size_t i = 0; i < pages; i++)
        count += here[i] & 1;
    free(here);
    munmap(bytes, stream->size);
    return count;
}

/* Puts the stream out of memory, of which no page may be left. */
static void make_cold(const Stream *stream)
{
    int is_put_out = fsync(stream->file) == 0 && posix_fadvise(stream->file, 0, 0, POSIX_FADV_DONTNEED) == 0;

    if (!is_put_out || resident(stream) != 0) {
        fprintf(stderr, "bench: the file stays in memory\n");
        exit(1);
    }
}

static void time_ways(const Stream *stream, int is_cold, int rounds)
{
    static double times[WAYS][MOST_ROUNDS], to_touch[WAYS][MOST_ROUNDS], to_plain[WAYS][MOST_ROUNDS];
    size_t pages[WAYS];

    for (int round = 0; round < rounds; round++) {
        for (size_t way = 0; way < WAYS; way++) {
            if (is_cold)
                make_cold(stream);
            double begin = seconds();
            if (ways[way].read(stream) != 3 * stream->fields)
                exit(2);
            times[way][round] = (seconds() - begin) * 1e3;
            pages[way] = resident(stream);
        }
        for (size_t way = 0; way < WAYS; way++) {
            to_touch[way][round] = times[way][round] / times[0][round];
            to_plain[way][round] = times[WAYS - 1][round] / times[way][round];
        }
    }
    printf("%zu fields, %s, %d rounds\n", stream->fields, is_cold ? "not in memory" : "in memory", rounds);
    for (size_t way = 0; way < WAYS; way++) {
        double middle = median(times[way], (size_t)rounds);

        printf("%-22s best %7.1f ms, median %7.1f; %5.2f of touching; %5.1f times as fast as the plain reader",
               ways[way].name, times[way][0], middle, median(to_touch[way], (size_t)rounds),
               median(to_plain[way], (size_t)rounds));
        printf(is_cold ? "; %zu pages of %zu\n" : "\n", pages[way], (stream->size + PAGE - 1) / PAGE);
    }
}

static int draw_stream(const char *path, long count)
{
    static uint8_t field[FIELD];
    FILE *file = fopen(path, "wb");

    for (long i = 0; file != NULL && i < count; i++) {
        draw_field(field);
        if (fwrite(field, FIELD, 1, file) != 1)
            return 2;
    }
    return file == NULL || fclose(file) != 0 ? 2 : 0;
}

int main(int count, char **words)
{
    struct stat about;

    if (count == 4 && strcmp(words[1], "draw") == 0)
        return draw_stream(words[2], atol(words[3]));
    if (count != 5 || strcmp(words[1], "stream") != 0 || atoi(words[4]) < 1 || atoi(words[4]) > MOST_ROUNDS) {
        fprintf(stderr, "usage: mapped draw FILE FIELDS | stream FILE warm|cold ROUNDS\n");
        return 2;
    }
    Stream stream = {open(words[2], O_RDONLY), 0, 0};
    if (stream.file < 0 || fstat(stream.file, &about) != 0)
        return perror(words[2]), 2;
    stream.size = (size_t)about.st_size;
    stream.fields = stream.size / FIELD;
    time_ways(&stream, strcmp(words[3], "cold") == 0, atoi(words[4]));
    return 0;
}
