/* SPDX-License-Identifier: MIT OR Apache-2.0 */
/* ldvbi: the code words of LaserDisc lines (IEC 60857 and IEC 60856), for C99 and C++98 and later. A player in short:
 *
 *     int file = open("side.tbc", O_RDONLY);
 *     size_t bytes = ldvbi_field_bytes(LDVBI_NTSC), count = (size_t)lseek(file, 0, SEEK_END) / bytes;
 *     size_t length = count * bytes;
 *     char *side = mmap(NULL, length, PROT_READ, MAP_SHARED, file, 0);
 *     madvise(side, length, MADV_RANDOM);
 *     LdvbiSought at;
 *     if (ldvbi_seek(LDVBI_NTSC, 16384, 51200, LDVBI_PICTURES, LDVBI_FIND_PACE, side, length, 12345, &at)) return 2;
 *     printf("picture 12345 is in field %zu of %zu\n", at.field + 1, count);
 *     LdvbiPlace stop;
 *     if (ldvbi_next_stop(LDVBI_NTSC, 16384, 51200, side, length, at.field, count, &stop)) return 2;
 *     if (stop.field < count) printf("the player stops in field %zu\n", stop.field + 1);
 *
 * If it isn't found, `at.field` is `count`. Seeking fetches about 2 MB of 50 GB. Without the call of madvise the system
 * reads ahead, ten pages or more for each one that is wanted. The programs in examples/ also test what the system
 * answers; player.c goes to chapters, too, and beside pictures that a capture lacks. In docs/, LIBRARY.md says how to
 * link, which line has which code, and how to read frames, lines of other sample rates and mapped files. Both folders
 * are installed in share/doc/ldvbi. What is proved of each call, and what isn't, is in docs/PROMISES.md.
 *
 * Samples have 16 bits, the low byte first, as in ld-decode's TBC files: line after line, field after field. Black and
 * white are samples too: black16bIre and white16bIre of the .tbc.json. A sample above the middle of the two is high.
 *
 * Numbers are uint32_t, and all of their 32 bits are tested: 257 is not taken for system 1. C cuts a wider number to 32
 * bits before the call, so test such a number first. No call tests the following. The caller has to ensure it:
 *   - Each pointer points to as many bytes or values as the length or count beside it says, or to one value of its
 *     type. It may be null only if that length or count is 0, as in an empty std::vector.
 *   - Pointers to structs are aligned as their types are. Pointers to samples needn't be.
 *   - The memory that a call writes overlaps nothing else that the call is given. What it held before doesn't matter.
 *     During the call no other thread touches the memory that it writes, and none writes the memory that it reads.
 * No call allocates, takes a lock, prints, calls back, throws, or keeps a pointer or anything else for a later call. So
 * any thread may call at any time, and so may a signal handler. */
#ifndef LDVBI_H
#define LDVBI_H

#include <stddef.h>
#include <stdint.h>

#ifdef __cplusplus
extern "C" {
#endif

/* LDVBI_POINTER: this argument, counted from 1, must not be null. LDVBI_RESULT: the caller has to look at the status.
 * To leave both out, define LDVBI_NO_ATTRIBUTES before you include the header. */
#if defined(__GNUC__) && !defined(LDVBI_NO_ATTRIBUTES)
#define LDVBI_POINTER(number) __attribute__((nonnull(number)))
#define LDVBI_RESULT __attribute__((warn_unused_result))
#else
#define LDVBI_POINTER(number)
#define LDVBI_RESULT
#endif

/* ---- Systems and sizes */
enum LdvbiSystem {
    /* from specs: systems */
    LDVBI_NTSC = 1, /* 525 lines; 910 samples to a line, 263 lines to a field */
    LDVBI_PAL = 2   /* 625 lines; 1135 samples to a line, 313 lines to a field */
    /* to here */
};

/* The samples and the bytes of a line, and the lines and the bytes of a field. Any other number of a system has 0. */
size_t ldvbi_line_samples(uint32_t system);
size_t ldvbi_line_bytes(uint32_t system);
size_t ldvbi_lines(uint32_t system);
size_t ldvbi_field_bytes(uint32_t system);

/* ---- The version of this header */
#define LDVBI_VERSION_MAJOR 0
#define LDVBI_VERSION_MINOR 2
#define LDVBI_VERSION_PATCH 0
#define LDVBI_VERSION (LDVBI_VERSION_MAJOR * 1000000 + LDVBI_VERSION_MINOR * 1000 + LDVBI_VERSION_PATCH)
#define LDVBI_VERSION_TEXT "0.2.0"

/* The interface that this header declares. If something is added, such as a call, a status or a kind, this number and
 * the library's name libldvbi.so.3 stay. If something is changed or removed, both are raised. So a program that was
 * built with this header runs with each library that has this interface and the same version or a later one. It has to
 * expect statuses, causes, kinds and formats that it doesn't know. To check the library that is linked: if (ldvbi_abi()
 * != LDVBI_ABI || ldvbi_version() < LDVBI_VERSION) .. */
#define LDVBI_ABI 3

uint32_t ldvbi_abi(void);     /* the interface of the library that is linked */
uint32_t ldvbi_version(void); /* its version, as a number */

/* ---- Statuses. They are tested in this order, except that LDVBI_BAD_ERASED comes last. A call returns only those that
 * are about its arguments. After any status but LDVBI_DONE, all that the call could have written is as it was. */
enum LdvbiStatus {
    LDVBI_DONE = 0,
    LDVBI_BAD_SYSTEM = 1, /* the system is neither LDVBI_NTSC nor LDVBI_PAL */
    LDVBI_BAD_LEVELS = 2, /* black is not below white, or one of them is above 65535 */
    LDVBI_BAD_LENGTH = 3, /* not the length of the call's lines or fields in this system, or arrays differ in length */
    LDVBI_BAD_WORD = 4,   /* a word is not from 0x800000 to 0xFFFFFF (0 is allowed if it stands for no word) */
    LDVBI_BAD_COUNTED = 5, /* `counted` is neither LDVBI_PICTURES nor LDVBI_TIMES */
    LDVBI_BAD_PACE = 6,    /* `pace` is none of LDVBI_VIDEO, LDVBI_FILM and LDVBI_FIND_PACE; `spacing` has no name */
    LDVBI_BAD_ERASED = 7,  /* a list of LdvbiErased isn't sorted, or an entry isn't as that struct says */
    LDVBI_BAD_LINE = 8,    /* `line` is none of 16, 17 and 18; tested before a list */
    LDVBI_BAD_KNOWN = 9,   /* `known` is neither 0 nor 1; tested before a list */
    LDVBI_BAD_CLOCK = 10   /* a clock is of none of the kinds 0 to 2, or its phase isn't below its period */
};

/* ---- Reading. A line shows a word, or the first of the causes below for which it shows none. Column c is hopeless if
 * samples 0 to c rule out a word, whatever follows. */
enum LdvbiCause {
    LDVBI_WORD = 0,
    LDVBI_BLANK = 1,      /* no sample is high */
    LDVBI_UNFINISHED = 2, /* no column is hopeless: a longer line could still show a word */
    LDVBI_CHANGE = 3,     /* the level changes at the first hopeless column, or this is column 0 */
    LDVBI_HOLD = 4        /* the level at the first hopeless column is that of the column before */
};

typedef struct LdvbiReading {
    uint8_t cause;   /* of enum LdvbiCause */
    uint8_t pass;    /* 1: the line's levels show the word; 2: smoothed ones do, less surely; 3: recovered; 0: none */
    uint16_t column; /* for LDVBI_CHANGE and LDVBI_HOLD the first hopeless column, counted from 0; else 0 */
    uint32_t word;   /* of LDVBI_WORD the word, from 0x800000 to 0xFFFFFF; else 0 */
} LdvbiReading;

typedef struct LdvbiFieldReadings {
    LdvbiReading lines[3]; /* of lines 16, 17 and 18 of a field, counted from 1 */
} LdvbiFieldReadings;

/* Reads a line. `length` has to be ldvbi_line_bytes(system). */
LDVBI_RESULT LDVBI_POINTER(6) uint32_t ldvbi_read_line(uint32_t system, uint32_t black, uint32_t white,
    const void *samples, size_t length, LdvbiReading *reading);

/* Reads lines 16, 17 and 18, which lie one after the other, as one pread fetches them from byte 15 *
 * ldvbi_line_bytes(system) of their field on. `length` has to be 3 * ldvbi_line_bytes(system). */
LDVBI_RESULT LDVBI_POINTER(6) uint32_t ldvbi_read_rows(uint32_t system, uint32_t black, uint32_t white,
    const void *samples, size_t length, LdvbiFieldReadings *readings);

/* Reads lines 16, 17 and 18 of a field, and touches no other. `length` has to be ldvbi_field_bytes(system). */
LDVBI_RESULT LDVBI_POINTER(6) uint32_t ldvbi_read_field(uint32_t system, uint32_t black, uint32_t white,
    const void *samples, size_t length, LdvbiFieldReadings *readings);

/* The same for `count` fields, one after the other, as in a mapped TBC file. `length` has to be count *
 * ldvbi_field_bytes(system). If the system reads nothing ahead (MADV_RANDOM), only two or three pages of each field are
 * read. examples/whole.c has the system fetch them in advance, which takes a quarter of the time. */
LDVBI_RESULT uint32_t ldvbi_read_fields(uint32_t system, uint32_t black, uint32_t white, const void *samples,
    size_t length, LdvbiFieldReadings *readings, size_t count);

/* ---- The nearest word: what can still be read of worn lines
 *
 * A word can be drawn from each column that leaves room for it: from 224 columns on NTSC, from 285 on PAL. Each drawn
 * word is a row of samples, and no word is a row too, which is black. How far a row is from some lines is a sum over
 * their samples: how far each is from the row's, but at most seven tenths of (white - black), rounded up. That is what
 * one column with the other level counts in one line. The nearest of all rows has the least distance.
 *
 * If two words are equally near, `rival` is `distance`, and either may be answered.
 *
 * Nothing is promised of real samples: if a dropout turns a cell over, another word is nearest. Video, captions and
 * sines have a nearest word too, but for most of them the margin (rival - distance) is small. A sine of 0.5 MHz looks
 * like a word but goes on beyond it: there `longer` is far below `distance`. */
typedef struct LdvbiNear {
    uint32_t word;     /* the nearest word, from 0x800000 to 0xFFFFFF; 0: no word is nearer than the row of none */
    uint32_t start;    /* the column, counted from 0, at which the drawn word begins; 0 if there is no word */
    uint64_t distance; /* how far its row is from the lines */
    uint64_t rival;    /* the least distance of a row of another word, or of none */
    uint64_t longer;   /* the least distance of this row with one more cell before or after the 24 of the word; the
                          same as `distance` if there is no word */
} LdvbiNear;

/* Finds the nearest word of 1 to 28 lines that all have the same word or none, such as lines 17 and 18 of a field. They
 * lie one after the other: `length` has to be 1 to 28 times ldvbi_line_bytes(system). */
LDVBI_RESULT LDVBI_POINTER(6) uint32_t ldvbi_nearest(uint32_t system, uint32_t black, uint32_t white,
    const void *samples, size_t length, LdvbiNear *near);

/* Columns of a line that are erased, such as those of a dropout. They count for no nearest word. */
typedef struct LdvbiErased {
    uint32_t field; /* of the fields in the call's bytes, counted from 0 */
    uint32_t line;  /* 16, 17 or 18 */
    uint32_t first; /* the first erased column, counted from 0 */
    uint32_t last;  /* the last one, not before the first; columns beyond the line count for nothing */
} LdvbiErased;

/* Reads lines 16, 17 and 18 as ldvbi_read_rows does, and recovers the words of worn lines, as pass 3. A line that shows
 * no word and isn't blank gets the nearest code that may stand on it if no word is nearer by more than 3 columns, of
 * (white - black) each; else it gets its nearest word. Any other code, or else any other word, has to be farther by at
 * least this many columns, and by at least this share, in 288ths, of how much nearer the word is than none:
 *
 *                                        a code that may stand on the line     any other word
 *                                              columns     share              columns     share
 *     levelled lines
 *         one line                                4          10                  5           8
 *         either, if they don't agree             8           0                 10           0
 *         lines 17 and 18 together                8          10                  5           7
 *     lines as they are
 *         one line                                6           0                  8           0
 *         either, if they don't agree             8           0                 10           0
 *         lines 17 and 18 together                8           8                  8           6
 *
 * A code that isn't ahead by so much is said all the same if it is the nearest of all words, and is ahead as any other
 * word has to be.
 *
 * Lines 17 and 18 are taken together if neither shows a word that stays, neither is blank, they agree, and each bears
 * the common word or code. They agree if each has the same nearest word or code, or if the common one is at most 30
 * columns farther from the two lines than the nearest one of each is from its own line. Each bears it if the common one
 * is nearer to both lines together, by 20 columns, than the nearest one of either line is to that line and no word to
 * the other.
 *
 * Nothing is recovered if the row with one more cell (`longer`), or with one or two cells black at an end, is nearer by
 * more than 2 columns in each levelled line, or 3 in each line as it is; nor unless the row with twelve cells black at
 * an end is farther by a quarter of how much farther none is. Two lines aren't taken together if, for each by itself,
 * the row with one more cell is nearer by more than so many columns.
 *
 * A picture number of 80,000 or more is never recovered, since no disc is known to have one. Its word is one of
 * 0xF80000 to 0xFF9999 whose last four digits are decimal: the first digit of the number has its top bit. It counts as
 * no code here. If lines would say it as their nearest word, they say nothing.
 *
 * All this is asked first of the levelled lines, then, if they say nothing, of the lines as they are. To level a line,
 * the mean of six cells is taken off, and the rest is made to swing from black to white on levels of its own, which
 * leave room beyond both. Then each sample becomes a quarter of the sum of the one before, twice itself and the one
 * after. This is done if the rest swings by 3 to 16 tenths of (white - black), and if of two lines neither swings more
 * than twice as much as the other. A word of pass 2 stays only if its line by itself says it in this way, or if a row
 * of it whose cells have 98 to 102 hundredths of their length is nearer than that of any other word by 8 columns. A
 * picture number of 80,000 or more stays, too, if its line says it as a word that is no code. A word of pass 1 stays as
 * it is, and a blank line stays blank.
 *
 * Columns of `erased`, a list of field 0, are left out. The list is sorted by field, then line, then first column. Its
 * entries may overlap. An empty list erases nothing, and may be null. LDVBI_BAD_ERASED is returned only if all else is
 * right. */
LDVBI_RESULT LDVBI_POINTER(8) uint32_t ldvbi_recover_rows(uint32_t system, uint32_t black, uint32_t white,
    const void *samples, size_t length, const LdvbiErased *erased, size_t erased_count, LdvbiFieldReadings *readings);

/* The same for `count` fields, as ldvbi_read_fields takes them, with a list of these fields. */
LDVBI_RESULT uint32_t ldvbi_recover_fields(uint32_t system, uint32_t black, uint32_t white, const void *samples,
    size_t length, const LdvbiErased *erased, size_t erased_count, LdvbiFieldReadings *readings, size_t count);

/* The record of a field in the document with recovered words, version 3, which docs/FORMATS.md describes: a line of
 * JSON without a newline. In the document a comma and a newline stand between two records. */
typedef struct LdvbiRecord {
    uint32_t length;   /* the bytes of the record */
    uint8_t text[448]; /* the record in ASCII, then zeros */
} LdvbiRecord;

/* Writes the record of a field from its lines 16, 17 and 18, as ldvbi_recover_rows takes them. `number` is the
 * number of the field, which in the document is counted from 1; any number is taken. The distances of nearest words in
 * the record leave out erased columns. A word of pass 3 has the cause that ldvbi_read_rows answers. */
LDVBI_RESULT LDVBI_POINTER(9) uint32_t ldvbi_recovered_record(uint32_t system, uint32_t black, uint32_t white,
    uint32_t number, const void *samples, size_t length, const LdvbiErased *erased, size_t erased_count,
    LdvbiRecord *record);

/* Finds the word that 1 to 28 lines say together. They all have the same word or none, and `word` gets 0 if they say
 * none. They have the same number, `line`: 16, 17 or 18. They lie one after the other, as ldvbi_nearest takes them, and
 * may be of several fields or captures. `erased` lists columns that count for nothing. In its entries `field` is the
 * place of the line among these lines, counted from 0, and `line` is their number.
 *
 * The rule is that of ldvbi_recover_rows for two lines, with other margins, the same for levelled lines and for lines
 * as they are. A code that may stand on the line has to be ahead by 4 columns if dropouts are known (`known` is 1),
 * else (`known` is 0) by 8, and by a share of 4/288. Any other word has to be ahead by 8 columns, and by 3/288. The row
 * with one more cell, or with one or two cells fewer, may be nearer by 4 columns in each line. The levelled lines are
 * asked first if each of them swings as much as said there, and none more than twice as much as another. */
LDVBI_RESULT LDVBI_POINTER(10) uint32_t ldvbi_recover_pile(uint32_t system, uint32_t black, uint32_t white,
    uint32_t line, uint32_t known, const void *samples, size_t length, const LdvbiErased *erased, size_t erased_count,
    uint32_t *word);

/* ---- What words say */
enum LdvbiKind {
    /* from texts/classes.txt: kinds */
    LDVBI_OTHER = 0,
    LDVBI_PICTURE = 1,       /* first: the number of a picture of a CAV disc, 0 to 79999 */
    LDVBI_CHAPTER = 2,       /* first: the chapter, 0 to 79 */
    LDVBI_TIME = 3,          /* first: hours of a CLV disc, 0 to 9; second: minutes, 0 to 99 */
    LDVBI_CLV_PICTURE = 4,   /* first: seconds, 0 to 59; second: the picture within its second, 0 to 99 */
    LDVBI_CX_ON = 5,         /* first: the last three hexadecimal digits, 0 to 4095 */
    LDVBI_CX_OFF = 6,        /* first: the last three hexadecimal digits, 0 to 4095 */
    LDVBI_USERS = 7,         /* first: the second digit, 0 to 7; second: the last three hexadecimal digits, 0 to 4095 */
    LDVBI_LEAD_IN = 8,
    LDVBI_LEAD_OUT = 9,
    LDVBI_PICTURE_STOP = 10, /* a player stops at this picture */
    LDVBI_CLV_MARK = 11      /* the disc is a CLV disc */
    /* to here */
};

typedef struct LdvbiCode {
    uint32_t kind, first, second; /* of enum LdvbiKind, then its numbers; a number that this kind doesn't have is 0 */
} LdvbiCode;

/* Finds what a word says. 0 is no word. */
LDVBI_RESULT LDVBI_POINTER(2) uint32_t ldvbi_classify(uint32_t word, LdvbiCode *code);

/* The discs that a field's codes belong to */
enum LdvbiFormat {
    LDVBI_NEITHER = 0,
    LDVBI_CAV = 1, /* picture numbers or picture stops, and no code of a CLV disc */
    LDVBI_CLV = 2, /* CLV marks, times or CLV pictures, and no code of a CAV disc */
    LDVBI_BOTH = 3 /* codes of both: one of them was misread */
};

/* Finds the format of a field whose lines 16, 17 and 18 have these words. 0 stands for no word. */
LDVBI_RESULT LDVBI_POINTER(4) uint32_t ldvbi_format(uint32_t first, uint32_t second, uint32_t third, uint32_t *format);

/* ---- Judging: which number of its disc each field shows
 *
 * A misread line shows a number like any other, so the fields around it decide whether the number is believed. They
 * support it if their numbers fit it at the disc's pace, as picture 101 two fields later fits picture 100. A word of
 * pass 1 weighs 2, one of pass 2 or 3 weighs 1. A number is believed only if the words that support it, in the field
 * itself and in the LDVBI_REACH fields before and after it, weigh 10 or more, and more than those for any other number
 * of the field.
 *
 * If no number of a field is believed, one may be due in it: the number that two believed fields, one before it and one
 * after it, count to. Both lie a whole number of pictures away, and at most LDVBI_REACH fields. Each believed number
 * between the two has to fit it; on video it may be a field off if the two are at most 8 fields apart. None is due if
 * the field shows a code that stands in place of a number, or one number on both lines in pass 1.
 *
 * ldvbi_judge_side judges lost fields; minutes without seconds are judged by `ldvbi-side` alone. */

enum { LDVBI_REACH = 24 }; /* how many fields before a field, and how many after it, are looked at */

enum LdvbiCounted {
    LDVBI_PICTURES = 1, /* the picture numbers of a CAV disc */
    LDVBI_TIMES = 2     /* the times of a CLV disc, as pictures from its beginning: 30 (NTSC) or 25 (PAL) a second */
};

enum LdvbiPace {
    LDVBI_VIDEO = 1,    /* a picture lasts two fields */
    LDVBI_FILM = 2,     /* pictures last two and three fields by turns, as those of film do on NTSC */
    LDVBI_FIND_PACE = 3 /* film's if over a tenth more numbers of NTSC pictures are believed by it, else video's */
};

typedef struct LdvbiSighting {
    uint32_t number; /* the number that a line shows */
    uint32_t weight; /* 2: in pass 1; 1: in pass 2 or 3; 0: the line shows no number, and `number` is 0 */
} LdvbiSighting;

typedef struct LdvbiSightings {
    LdvbiSighting line_17, line_18; /* what a field shows there; the seconds of a time are those of line 16 */
    uint32_t instead; /* 1: line 17 or 18 shows a chapter, lead-in, lead-out or the other kind of number; else 0 */
} LdvbiSightings;

enum LdvbiState {
    LDVBI_NOTHING = 0,  /* the field shows no number, and none is due; the number is 0 */
    LDVBI_BELIEVED = 1, /* the field shows the number, and it is believed */
    LDVBI_DOUBTFUL = 2, /* the field shows the number (if two, that of line 17); none is believed of it, none is due */
    LDVBI_DUE = 3       /* none of the field is believed, and those before and after count to this one, shown or not */
};

typedef struct LdvbiNumber {
    uint32_t number;
    uint32_t state; /* of enum LdvbiState */
} LdvbiNumber;

/* Judges the numbers of `count` fields that follow each other. `numbers` gets the answers. `seen` is a buffer for the
 * call to work in, and gets what each field shows. Both have `count` values. If a capture goes on, judge it again with
 * its new fields. If the pace is given, these may change what is believed for the last LDVBI_REACH fields, and what is
 * due in twice as many; all answers before those stay. With LDVBI_FIND_PACE the pace may change, and with it any
 * answer. */
LDVBI_RESULT uint32_t ldvbi_judge(uint32_t system, uint32_t counted, uint32_t pace, const LdvbiFieldReadings *readings,
    size_t count, LdvbiSightings *seen, size_t seen_count, LdvbiNumber *numbers, size_t number_count);

/* Completes times whose minute wasn't read. Line 16 of such a field shows second and picture, and neither line 17 nor
 * line 18 shows a time. The times that were read in the LDVBI_VOTE_REACH fields before it and after it vote: each one
 * that goes on with the second and picture of the field, whatever the minute, votes for a number of the field with its
 * own weight. The number that has more than half of the weight, and 4 of it or more (two lines of pass 1), is elected.
 * `completed` gets the readings, and on line 17 of such a field the hours and minutes of that number, in the pass of
 * line 16; lines 16 and 18 stay. `seen` gets what the readings show, as from ldvbi_judge with LDVBI_TIMES. All arrays
 * have `count` values. To judge times, give `completed` in place of `readings`. Judge chapters and ends by the readings
 * themselves, since line 17 may have shown one. */
enum { LDVBI_VOTE_REACH = 240 };
LDVBI_RESULT uint32_t ldvbi_complete_times(uint32_t system, const LdvbiFieldReadings *readings, size_t count,
    LdvbiSightings *seen, size_t seen_count, LdvbiFieldReadings *completed, size_t completed_count);

/* Finds the pace that ldvbi_judge takes for these readings with LDVBI_FIND_PACE: LDVBI_VIDEO or LDVBI_FILM. `seen` gets
 * the same as there. To judge a capture that goes on by one pace, find the pace when enough has been read. */
LDVBI_RESULT LDVBI_POINTER(7) uint32_t ldvbi_find_pace(uint32_t system, uint32_t counted,
    const LdvbiFieldReadings *readings, size_t count, LdvbiSightings *seen, size_t seen_count, uint32_t *pace);

enum { LDVBI_PART = 97 }; /* the answer for a field depends on it and on 2 * LDVBI_REACH fields on either side */

/* Judges the field `field`, counted from 0, of at most LDVBI_PART fields that follow each other. It is for a player
 * that jumps about and has no buffer for a whole side. If the readings have 2 * LDVBI_REACH fields before it, or begin
 * with the side, and have as many after it, or end with the side, `number` is what ldvbi_judge answers for it in the
 * whole side at the same pace. `pace` is LDVBI_VIDEO or LDVBI_FILM, as ldvbi_find_pace answers for the side: a few
 * fields have no pace of their own. LDVBI_BAD_LENGTH is returned also if `field` isn't below `count`. */
LDVBI_RESULT LDVBI_POINTER(7) uint32_t ldvbi_judge_field(uint32_t system, uint32_t counted, uint32_t pace,
    const LdvbiFieldReadings *readings, size_t count, size_t field, LdvbiNumber *number);

/* ---- Seeking a number, and where it was found */
typedef struct LdvbiNeighbour {
    size_t field;       /* counted from 0; the count of the side's fields if there is no such neighbour */
    LdvbiNumber number; /* the answer for this field: the number, and LDVBI_BELIEVED; else 0 */
} LdvbiNeighbour;
typedef struct LdvbiSought {
    size_t field;          /* counted from 0; the count of the side's fields if none was found */
    LdvbiNumber number;    /* the answer for this field: the number, and LDVBI_BELIEVED or LDVBI_DUE; else 0 */
    uint32_t pace;         /* the pace of this answer, LDVBI_VIDEO or LDVBI_FILM; else 0 */
    uint32_t looked;       /* how many fields were read, at most LDVBI_LOOKED */
    LdvbiNeighbour before; /* the nearest lower number of the fields looked at, in the last of them with it */
    LdvbiNeighbour after;  /* the nearest higher one, in the first of them with it */
} LdvbiSought;
enum { LDVBI_LOOKED = 1000 };

/* Seeks a number in the `length` bytes of a side, such as a mapped file. It does so by halving, so few fields are read.
 * `pace` is as for ldvbi_judge. With LDVBI_FIND_PACE the call finds a pace by the few fields that it judges, and names
 * it in `sought`. It needn't be the one that ldvbi_find_pace answers for the side. A cut last field is left out.
 *
 * The field that is answered has the number, and the field before it hasn't, as ldvbi_judge answers at this pace by
 * what ldvbi_recover_fields reads of all fields. On a side that jumps, or of which much isn't read, a number may be
 * missed: to be sure that it isn't there, judge the whole side. */
LDVBI_RESULT LDVBI_POINTER(9) uint32_t ldvbi_seek(uint32_t system, uint32_t black, uint32_t white, uint32_t counted,
    uint32_t pace, const void *bytes, size_t length, uint32_t number, LdvbiSought *sought);

/* ---- Judging chapters
 *
 * A chapter is believed only if the codes that say it, in the field itself and in the LDVBI_REACH fields before and
 * after it, weigh 10 or more, and more than those that say any other chapter of the field. The codes that speak against
 * it have to weigh less than 10: those of later chapters before the field or in it, and those of earlier chapters after
 * it or in it.
 *
 * A chapter can seem longer by a few fields if codes near its ends are misread as its own. If a player goes back to an
 * earlier chapter, there may be no believed chapter for LDVBI_REACH fields before and after. */

/* Judges the chapters of fields as ldvbi_judge does their numbers. `chapters` gets the answers: the number is the
 * chapter, and the state is never LDVBI_DUE. Most fields have no chapter code. They have LDVBI_NOTHING, and belong to
 * the chapter that was believed last. `seen` gets the chapters that lines 17 and 18 show, with `instead` 0. */
LDVBI_RESULT uint32_t ldvbi_judge_chapters(const LdvbiFieldReadings *readings, size_t count, LdvbiSightings *seen,
    size_t seen_count, LdvbiNumber *chapters, size_t chapter_count);

/* Where a chapter or a stop was found */
typedef struct LdvbiPlace {
    size_t field;  /* counted from 0; the count of the side's fields if none was found */
    size_t looked; /* how many fields were read */
} LdvbiPlace;

/* Finds the field in which a chapter begins in the `length` bytes of a side, by halving: at most LDVBI_LOOKED fields
 * are read. A cut last field is left out. ldvbi_judge_chapters believes the chapter of the field that is answered, and
 * of none of the 72 fields before it, by what ldvbi_recover_fields reads of all fields. One may be missed on a worn
 * side, or if the player went back. */
LDVBI_RESULT LDVBI_POINTER(7) uint32_t ldvbi_seek_chapter(uint32_t system, uint32_t black, uint32_t white,
    const void *bytes, size_t length, uint32_t chapter, LdvbiPlace *place);

/* Returns the first field, counted from 0, for which this number or chapter is believed or due; else `count`. */
size_t ldvbi_first_of(const LdvbiNumber *numbers, size_t count, uint32_t number);

/* ---- Judging stops
 *
 * A disc has a stop on lines 16 and 17. It is believed if one of the two shows it in pass 1, or if both do, in whatever
 * pass. Other fields have no say, since a stop may stand anywhere on a side. */

/* Judges the stops of `count` fields. Each is judged by itself, so it may be one field alone. For each field `stops`
 * gets LDVBI_BELIEVED; LDVBI_DOUBTFUL if line 16 or 17 shows a stop that isn't believed; else LDVBI_NOTHING. A player
 * stops at the first field after its own that has LDVBI_BELIEVED. All fields of a picture may have its stop. */
LDVBI_RESULT uint32_t ldvbi_judge_stops(const LdvbiFieldReadings *readings, size_t count, uint32_t *stops,
    size_t stop_count);

/* Finds the next stop in the `length` bytes of a side: the first field from `field` on for which ldvbi_judge_stops
 * believes one, by what ldvbi_recover_fields reads of it. Fields are read one after the other up to that one, at most
 * `most` of them: none if that is 0, or if `field` isn't below the count. If none has a stop, the next call goes on at
 * `field` + `looked`. A cut last field is left out. */
LDVBI_RESULT LDVBI_POINTER(8) uint32_t ldvbi_next_stop(uint32_t system, uint32_t black, uint32_t white,
    const void *bytes, size_t length, size_t field, size_t most, LdvbiPlace *stop);

/* ---- Judging a whole side
 *
 * ldvbi_judge_side finds the places where the numbers and the fields of a side don't go on together, and judges whether
 * its capture is whole. Two neighbouring believed numbers go on if they lie as many fields apart as they count to: two
 * for each picture or time; two and a half on film, to within a field; and two, to within a field, on video with a
 * number on both fields of a picture. All else is a gap.
 *
 * Two neighbouring gaps may be a detour around the run of numbers between them. Then both have another kind, in place
 * of LDVBI_LOST, LDVBI_HELD, LDVBI_BACK or LDVBI_OPEN; other gaps are never part of one. The numbers around are `from`
 * of the first gap and `to` of the second one, which has to be above it. If these two go on, both gaps are
 * LDVBI_REPLACED: the run's numbers were misread, or two cuts cancel each other. On film a gap of these may also stand
 * in place of LDVBI_STILL: a number that is misread by one looks so. Else both are LDVBI_INSERTED if numbers go back at
 * one of the gaps, and the two count to no more fields than lie outside of the run: the player left the fields around,
 * and came back. Detours are taken from the first gap on, and no gap is part of two. Of the numbers between the two
 * none is lost, undecided or unread by these gaps.
 *
 * Some faults go unseen. Up to 100 lost fields and as many doubled ones leave no gap if no number between is believed.
 * Swapped fields go unseen if their numbers weren't read, on film, and with numbers on both fields. And a disc whose
 * own numbers leave some out looks as if fields were lost, except by the clock that says which (below). */
enum LdvbiGapKind {
    LDVBI_LOST = 1,   /* fields of the disc are lost */
    LDVBI_HELD = 2,   /* there are more fields than the numbers count to */
    LDVBI_BACK = 3,   /* the numbers go back */
    LDVBI_STILL = 4,  /* the same number an even count of fields later: the player stood still; never for times */
    LDVBI_JOINED = 5, /* lead-in or lead-out is believed between, and the number changes: another side begins */
    LDVBI_OPEN = 6,   /* fields are lost or too many, or the disc itself skips: the clock of an NTSC CLV disc leaves out
                         one or two times; film that is cut over an unread number goes on a field off; and a disc of
                         film may have video there, if there are just two fields for each number */
    LDVBI_INSERTED = 7, /* one of the two gaps of a detour over fields that don't belong there */
    LDVBI_REPLACED = 8  /* one of the two gaps of a detour whose numbers were misread, unless two cuts cancel */
};

typedef struct LdvbiGap {
    size_t after, before; /* the fields with the numbers before it and after it, counted from 0 */
    uint64_t fields;      /* at least how many are lost or too many; how many a still has; for an open gap how many
                             more or fewer there are than the numbers count to; for the first gap of LDVBI_INSERTED how
                             many don't belong there, on film to within a field; else 0 */
    uint64_t shown;       /* the fields between that show a number between these two, on both lines in pass 1 */
    uint32_t from, to;    /* the numbers of the two fields */
    uint32_t kind;        /* of enum LdvbiGapKind */
} LdvbiGap;

typedef struct LdvbiTally { /* a count that is too large becomes the greatest one that 64 bits hold */
    size_t gaps;             /* how many there are, whether there was room for them or not */
    uint64_t lost, held;     /* at least how many fields are lost, and how many are too many */
    uint64_t stood, stills;  /* the fields of stills, and how many stills: each counts once, however many gaps it has */
    size_t still_end;        /* the field after the last still, counted from 0; 0 if there is none */
    uint64_t back, joined;   /* how often the numbers go back, and how often another side begins */
    uint64_t open_gaps;      /* how many gaps are LDVBI_OPEN or LDVBI_REPLACED */
    uint64_t lost_numbers;   /* numbers that are skipped in gaps with lost fields, without those that are undecided */
    uint64_t undecided;      /* skipped numbers that may be there: in gaps with lost fields as many as the fields
                                between show, or half as many as these fields, if that is more; in open gaps all */
    uint64_t unread;         /* numbers that are skipped between two that go on: their fields are there */
    uint64_t inserted;       /* at least how many fields don't belong there, by LDVBI_INSERTED gaps */
} LdvbiTally;

enum LdvbiBoth { /* whether a disc of video has its numbers on both fields of a picture */
    LDVBI_ON_ONE = 0,
    LDVBI_ON_BOTH = 1,
    LDVBI_FIND_BOTH = 3 /* on both if a quarter or more of the believed numbers that follow another one stand an odd
                           count of fields after it */
};

enum LdvbiVerdict { LDVBI_CANNOT_TELL = 0, LDVBI_WHOLE = 1, LDVBI_NOT_WHOLE = 2 };

enum LdvbiReason { /* any of the first six, LDVBI_IS_INSERTED and LDVBI_IS_PADDED make the side LDVBI_NOT_WHOLE, else
                      any other one LDVBI_CANNOT_TELL */
    LDVBI_IS_LOST = 1,
    LDVBI_IS_HELD = 2,
    LDVBI_GOES_BACK = 4,
    LDVBI_IS_JOINED = 8,
    LDVBI_BEGINS_LATE = 16,     /* from lead-in, or from the beginning, to the first number there are fewer fields than
                                   the numbers before it take */
    LDVBI_IS_SWAPPED = 32,      /* on video with numbers on one field of a picture: between two numbers that go on, a
                                   field shows one that belongs in a field beside it and isn't there */
    LDVBI_IS_OFF = 64,          /* numbers go on one by one, each to within a field, but not all from each other; or
                                   `open_gaps` is 0, and the last one, less the fields `stood` and `inserted`,
                                   doesn't go on from the first */
    LDVBI_NO_NUMBERS = 128,     /* none is believed; then this is the only reason */
    LDVBI_END_UNSEEN = 256,     /* no lead-out is believed after the last number, and `may_end` is 0 */
    LDVBI_BEGIN_UNSEEN = 512,   /* the first number is above 1, and over 100 fields are before it, counted as above */
    LDVBI_MANY_DOUBTFUL = 1024, /* a tenth or more of the numbers that were read are LDVBI_DOUBTFUL */
    LDVBI_IS_OPEN = 2048,       /* a gap is LDVBI_OPEN or LDVBI_REPLACED */
    LDVBI_IS_INSERTED = 4096,   /* a gap is LDVBI_INSERTED */
    LDVBI_IS_PADDED = 8192,     /* a field is LDVBI_IS_PADDING */
    LDVBI_IS_BLANK = 16384      /* between two believed numbers that go on are over 100 fields without one */
};

typedef struct LdvbiSide {
    LdvbiTally tally;
    size_t first, last; /* the first and the last field with a believed number, counted from 0; 0 if there is none */
    size_t swap;        /* the first field of LDVBI_IS_SWAPPED, counted from 0; else 0 */
    size_t padded;      /* how many fields are LDVBI_IS_PADDING */
    size_t blank;       /* the first field of LDVBI_IS_BLANK, counted from 0; else 0 */
    uint32_t verdict;   /* of enum LdvbiVerdict */
    uint32_t reasons;   /* the sum of the reasons; 0 only if it is LDVBI_WHOLE */
} LdvbiSide;

enum LdvbiEnd { /* whether a field belongs to an end of the side */
    LDVBI_NO_END = 0,
    LDVBI_IS_LEAD_OUT = 1,
    LDVBI_DOUBTFUL_END = 2,
    LDVBI_IS_LEAD_IN = 3,
    LDVBI_IS_PADDING = 4 /* it stands for a field that the capture lacks. No call answers this: write it yourself, after
                            ldvbi_judge_ends, for each field that the metadata calls `pad` */
};

/* Judges which fields show lead-in or lead-out, each by its own lines 17 and 18. For each field `ends` gets
 * LDVBI_IS_LEAD_OUT if one of the two lines shows lead-out in pass 1, or if both lines do, in whatever pass; else
 * LDVBI_IS_LEAD_IN if they show lead-in so; LDVBI_DOUBTFUL_END if a line shows either; else LDVBI_NO_END. */
LDVBI_RESULT uint32_t ldvbi_judge_ends(const LdvbiFieldReadings *readings, size_t count, uint32_t *ends,
    size_t end_count);

/* Returns 1 if LDVBI_FIND_BOTH finds that the disc has its numbers on both fields of a picture, else 0. */
uint32_t ldvbi_find_both(const LdvbiNumber *numbers, size_t count);

/* ---- The clock of an NTSC CLV disc
 *
 * NTSC counts 30 pictures to a second, which has 29.97. To keep to the clock, CLV discs leave out numbers: there no
 * field is missing, only a number. By the disc's clock ldvbi_judge_side counts all numbers without those that are left
 * out, and finds no gap there. By LDVBI_PLAIN it takes each of these places for a gap, which is LDVBI_OPEN, so it can't
 * tell whether the side is whole. With numbers on both fields of a picture it may take it for LDVBI_LOST.
 *
 * A disc counts on by a clock if any two of its numbers lie as many fields apart as the numbers between that the clock
 * doesn't leave out count to. By a clock no gap of video is LDVBI_OPEN, and LDVBI_BEGINS_LATE and LDVBI_IS_OFF count by
 * it, too.
 *
 * By a wrong clock sound places are gaps, and lost fields go unseen where it leaves out a number. */
enum LdvbiClockKind {
    LDVBI_PLAIN = 0,      /* the disc leaves out no number, or it isn't known which */
    LDVBI_DROP_FRAME = 1, /* the first two of each minute but each tenth: 0:00:59.29 is followed by 0:01:00.02 */
    LDVBI_ONE_IN = 2      /* one in `period`: those that leave the remainder `phase` */
};

typedef struct LdvbiClock {
    uint32_t kind;   /* of enum LdvbiClockKind */
    uint32_t period; /* of LDVBI_ONE_IN; else 0 is answered, and what is given isn't read */
    uint32_t phase;  /* below `period`, of LDVBI_ONE_IN; else the same */
} LdvbiClock;

/* The rule by which a whole side is judged */
typedef struct LdvbiSideRule {
    uint32_t system;  /* of enum LdvbiSystem */
    uint32_t counted; /* of enum LdvbiCounted */
    uint32_t pace;    /* the one at which ldvbi_judge judged, LDVBI_VIDEO or LDVBI_FILM, as ldvbi_find_pace answers it;
                         LDVBI_FIND_PACE is LDVBI_BAD_PACE here */
    uint32_t both;    /* of enum LdvbiBoth; any other number counts as LDVBI_ON_BOTH */
    LdvbiClock clock; /* the clock to which the disc keeps */
} LdvbiSideRule;

/* Finds the clock that the believed numbers of a side tell. That of the rule isn't read. Three clocks are tried:
 * LDVBI_DROP_FRAME, and LDVBI_ONE_IN with the periods 1,000 and 1,001. Of these two the phase is that of more than half
 * of the places at which just one number is missing; if none has so many, any of theirs. Two neighbouring numbers speak
 * for a clock if they go on by it and not without, and against it if they go on without it and not by it. A clock needs
 * three such pairs or more for it, and at least twice as many as against it. The one that most speak for is answered:
 * LDVBI_DROP_FRAME if as many speak for another one, but LDVBI_PLAIN if as many speak for 1,000 as for 1,001. It is
 * LDVBI_PLAIN if the system isn't LDVBI_NTSC or pictures are counted.
 *
 * A device that loses a picture each 1,000 looks like a clock. And a side has to show three of the places: the first
 * three minutes of a disc don't tell drop-frame, nor its first 2,000 to 3,000 pictures one in 1,000 or 1,001. */
LDVBI_RESULT LDVBI_POINTER(1) LDVBI_POINTER(4) uint32_t ldvbi_find_clock(const LdvbiSideRule *rule,
    const LdvbiNumber *numbers, size_t number_count, LdvbiClock *clock);

/* Judges a whole side by what ldvbi_judge saw in its fields and answered for them, and by what ldvbi_judge_ends
 * answered. The three arrays have to be equally long. `may_end` is not 0 if the capture may end before the disc does.
 * `gaps` gets the first gaps, as many as it has room for; the rest of it stays as it was. */
LDVBI_RESULT LDVBI_POINTER(1) LDVBI_POINTER(11) uint32_t ldvbi_judge_side(const LdvbiSideRule *rule, uint32_t may_end,
    const LdvbiSightings *seen, size_t seen_count, const LdvbiNumber *numbers, size_t number_count,
    const uint32_t *ends, size_t end_count, LdvbiGap *gaps, size_t gap_room, LdvbiSide *side);

/* Sets aside numbers that stand in the place of others: words of which the same bits are misread, by a scratch that
 * stands still while the disc turns, show numbers that go on with each other, and are believed. `gaps` are those that
 * ldvbi_judge_side told of these numbers by the same rule, or the first of them. `left` gets the numbers, in another
 * array as long: as they are, but LDVBI_DOUBTFUL where one is LDVBI_BELIEVED in a run between two neighbouring gaps of
 * LDVBI_REPLACED, and three things hold. More believed numbers of the side are in a row with the number before the run
 * than with its first one, and more with the number after it than with its last one: two are in a row if they go on, on
 * film to within two fields. The run has none of the numbers that are due in its fields: a player that skips a few
 * pictures, and goes back by as many, shows most. And at neither gap the number stays. `*count` is how many were set
 * aside. What was said of the side stands. Each run takes four passes over the numbers. */
LDVBI_RESULT LDVBI_POINTER(1) LDVBI_POINTER(8) uint32_t ldvbi_set_aside(const LdvbiSideRule *rule, const LdvbiGap *gaps,
    size_t gap_count, const LdvbiNumber *numbers, size_t number_count, LdvbiNumber *left, size_t left_count,
    size_t *count);

/* ---- The plan of a file that is made from several captures of a disc
 *
 * The fields of all captures are counted through from 0, one capture after the other; `numbers` has what ldvbi_judge
 * answered of each. A plan says in stretches which fields stand one after the other in the file: some of a capture, or
 * padding. A stretch stands for the disc's numbers from its own `number` to before that of the next stretch, the last
 * one to before `end`; for none if the two are the same, as padding in place of a part of a picture. A number's rank is
 * how many numbers the disc has below it, by the clock.
 *
 * A plan is done, and ldvbi_check_plan answers LDVBI_PLANNED, exactly if the following holds of each stretch:
 *   - It has a field, and one at least for each number for which it stands. The number after these isn't lower than its
 *     own.
 *   - If it isn't padding, its fields are all of its capture, and no stretch before it has one of them.
 *   - Each believed number of these fields is one for which the stretch stands, and is in its place. It stands as many
 *     fields after field `begin` of the file, in which the plan's first number begins, as its rank counts to by
 *     `spacing`; and as many after each believed number before it, but not by LDVBI_SPACING_BOTH.
 *   - If it is padding, it stands for no number that is believed of any field.
 * Else `stretch` is the first one of which that isn't so, and `rule` says which rule it breaks.
 *
 * Of a field before the first number of its stretch or after the last one nothing is known: a player may have jumped
 * there.
 *
 * The time grows with the fields of the plan and of the captures, with the square of the count of stretches, and, for
 * each stretch of padding that stands for a number, with the fields of the captures once more. */
enum LdvbiSpacing {          /* how far apart two numbers stand, of which one has the next rank */
    LDVBI_SPACING_VIDEO = 1, /* two fields */
    LDVBI_SPACING_FILM = 2,  /* two or three */
    LDVBI_SPACING_BOTH = 3,  /* two, or one or three: numbers are on both fields of a picture, and each may be read in
                                its second field alone */
    LDVBI_SPACING_RISING = 4 /* one or more, as minutes have thousands */
};

typedef struct LdvbiCapture {
    size_t first;  /* its first field, among those of all captures */
    size_t fields; /* how many it has */
} LdvbiCapture;

typedef struct LdvbiStretch {
    size_t field;     /* its first field, among those of all captures; of padding this isn't read */
    size_t fields;    /* how many it has */
    size_t capture;   /* the capture that has them, counted from 0; of padding this isn't read */
    uint32_t number;  /* the first number for which it stands */
    uint32_t padding; /* 0 if it is of a capture; else it is padding */
} LdvbiStretch;

enum LdvbiRule { /* what is found of a plan */
    LDVBI_PLANNED = 0,
    LDVBI_DISORDERED = 1, /* the stretch has no field, too few, or a number before that of an earlier one */
    LDVBI_NOT_THERE = 2,  /* its fields aren't all of its capture, or that isn't among the numbers */
    LDVBI_TWICE = 3,      /* a stretch before it has one of its fields */
    LDVBI_MISPLACED = 4,  /* a number of its fields is out of its place */
    LDVBI_HIDDEN = 5      /* it is padding, and a number for which it stands is believed of a field */
};

typedef struct LdvbiChecked {
    size_t stretch; /* the first stretch that breaks a rule, counted from 0; if none does, how many there are */
    uint32_t rule;  /* of enum LdvbiRule */
} LdvbiChecked;

/* Checks a plan. `spacing` is of enum LdvbiSpacing, and any other number is LDVBI_BAD_PACE. If the disc leaves out
 * numbers by no clock that LdvbiClock has, give ranks in place of all numbers, and LDVBI_PLAIN. */
LDVBI_RESULT LDVBI_POINTER(4) LDVBI_POINTER(11) uint32_t ldvbi_check_plan(uint32_t spacing, size_t begin, uint32_t end,
    const LdvbiClock *clock, const LdvbiNumber *numbers, size_t number_count, const LdvbiCapture *captures,
    size_t capture_count, const LdvbiStretch *plan, size_t stretch_count, LdvbiChecked *checked);

/* ---- Drawing. Writes the samples of a line that shows the word in black and white. For 0 the line is blank. `length`
 * has to be ldvbi_line_bytes(system). */
LDVBI_RESULT uint32_t ldvbi_draw_line(uint32_t system, uint32_t black, uint32_t white, uint32_t word, void *samples,
    size_t length);

/* ---- Texts. They are never null, and "unknown" for any other number. Causes are as in the document of `ldvbi
 * extract`, where a space and the column follow "change" and "hold"; kinds and formats are as in the report of `ldvbi
 * show`. */
static inline const char *ldvbi_status_text(uint32_t status) {
    static const char *const texts[] = {
        "done", "system is neither NTSC nor PAL", "black is not below white, or one of them is above 65535",
        "length does not fit the system", "number is no code word", "neither pictures nor times are counted",
        "pace is neither that of video nor of film, nor to be found",
        "list of erased columns is not sorted, or has columns of no line", "line is none of 16, 17 and 18",
        "whether dropouts are known is neither 0 nor 1",
        "clock has no such kind, or its phase is not below its period"};
    return status <= LDVBI_BAD_CLOCK ? texts[status] : "unknown";
}

static inline const char *ldvbi_cause_text(uint32_t cause) {
    static const char *const texts[] = {"word", "blank", "unfinished", "change", "hold"};
    return cause <= LDVBI_HOLD ? texts[cause] : "unknown";
}

static inline const char *ldvbi_kind_text(uint32_t kind) {
    static const char *const texts[] = {
        /* from texts/classes.txt: texts */
        "other", "picture", "chapter", "time", "clv picture", "cx on", "cx off", "users", "lead-in", "lead-out",
        "picture stop", "clv"
        /* to here */
    };
    return kind <= LDVBI_CLV_MARK ? texts[kind] : "unknown";
}

static inline const char *ldvbi_state_text(uint32_t state) {
    static const char *const texts[] = {"nothing", "believed", "doubtful", "due"};
    return state <= LDVBI_DUE ? texts[state] : "unknown";
}

static inline const char *ldvbi_format_text(uint32_t format) {
    static const char *const texts[] = {"neither", "cav", "clv", "both"};
    return format <= LDVBI_BOTH ? texts[format] : "unknown";
}

#ifdef __cplusplus
}
#endif

#endif
