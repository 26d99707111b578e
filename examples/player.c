/* A player. It does each command in turn, and prints the field that it shows then, from 1, and its picture. `search N`
 * or `search H:MM:SS.PP` goes to a picture; if the capture lacks it, to the nearest one beside it. `chapter N`, `next`
 * and `previous` go to where a chapter begins, `play` to the next stop, and `still` stays. All but `play` fetch a few
 * MB: so numbers and chapters have to rise, and on a worn side one may be missed. System and levels are the first rows
 * of a map (ldvbi-side --map). Status 1: something wasn't found; 2: standard error says what is wrong. It is C++, too.
 *     cc -o player player.c -lldvbi && ./player side.tbc side.map search 12345 play next still */
#define _DEFAULT_SOURCE
#include <fcntl.h>
#include <ldvbi.h>
#include <stdio.h>
#include <stdlib.h>
#include <string.h>
#include <sys/mman.h>
#include <unistd.h>
typedef struct { uint32_t system, black, white; const uint8_t *bytes; size_t length, fields; } Side;
typedef struct { size_t from, count; LdvbiFieldReadings read[LDVBI_PART]; LdvbiSightings seen[LDVBI_PART];
                 LdvbiNumber shown[LDVBI_PART]; uint32_t pace, states[LDVBI_PART]; } Part;
static void require(int holds, const char *fault) { if (!holds) exit((fprintf(stderr, "player: %s\n", fault), 2)); }
static void check(uint32_t status) { require(status == LDVBI_DONE, ldvbi_status_text(status)); }
static Side open_side(const char *path, const char *map) {
    const char *rows = "kind,number,field,frame,how system,%4[A-Z],1,1,side black,%5u,1,1,side white,%5u";
    Side side;
    char name[5];
    FILE *file = fopen(map, "r");
    require(file && fscanf(file, rows, name, &side.black, &side.white) == 3, "no system and levels in the map");
    side.system = strcmp(name, "NTSC") == 0 ? LDVBI_NTSC : strcmp(name, "PAL") == 0 ? LDVBI_PAL : 0;
    check(ldvbi_recover_fields(side.system, side.black, side.white, NULL, 0, NULL, 0, NULL, 0)); /* tests the numbers */
    int samples = open(path, O_RDONLY);
    side.fields = (size_t)lseek(samples, 0, SEEK_END) / ldvbi_field_bytes(side.system);
    side.length = side.fields * ldvbi_field_bytes(side.system);
    void *bytes = mmap(NULL, side.length, PROT_READ, MAP_SHARED, samples, 0);
    require(bytes != MAP_FAILED, "no field of the file can be mapped");
    madvise(bytes, side.length, MADV_RANDOM); /* few pages are read: read none ahead */
    side.bytes = (const uint8_t *)bytes;
    return side;
}
static Part read_around(const Side *side, size_t field, size_t reach) { /* and as many before it, as far as they go */
    size_t bytes = ldvbi_field_bytes(side->system), from = field < reach ? 0 : field - reach, to = field + reach + 1;
    Part p;
    p.from = from, p.count = (to < side->fields ? to : side->fields) - from;
    check(ldvbi_recover_fields(side->system, side->black, side->white, side->bytes + from * bytes, p.count * bytes,
                               NULL, 0, p.read, p.count));
    return p;
}
static int has_picture(const Side *side, size_t field, uint32_t *number) {
    Part p = read_around(side, field, 2 * LDVBI_REACH); /* so many that this is the answer of the whole side's judge */
    check(ldvbi_find_pace(side->system, LDVBI_PICTURES, p.read, p.count, p.seen, p.count, &p.pace));
    check(ldvbi_judge_field(side->system, LDVBI_PICTURES, p.pace, p.read, p.count, field - p.from, p.shown));
    *number = p.shown[0].number;
    return p.shown[0].state == LDVBI_BELIEVED || p.shown[0].state == LDVBI_DUE;
}
/* ---- Where commands lead: to a field, or to the count of all fields */
static int chapter_of(const Side *side, size_t field) { /* the last one up to it; 80 in lead-out, -1 before all */
    Part p = read_around(side, field, LDVBI_REACH);
    check(ldvbi_judge_chapters(p.read, p.count, p.seen, p.count, p.shown, p.count));
    check(ldvbi_judge_ends(p.read, p.count, p.states, p.count));
    for (size_t i = field - p.from + 1; i-- > 0;)
        if (p.states[i] == LDVBI_IS_LEAD_OUT || p.shown[i].state == LDVBI_BELIEVED)
            return p.states[i] == LDVBI_IS_LEAD_OUT ? 80 : (int)p.shown[i].number;
    return -1;
}
static size_t seek_chapter(const Side *side, uint32_t chapter) {
    LdvbiPlace at;
    check(ldvbi_seek_chapter(side->system, side->black, side->white, side->bytes, side->length, chapter, &at));
    return at.field;
}
static size_t chapter_from(const Side *side, int at, int step) { /* the first one from this one on that is found */
    size_t found = side->fields;
    for (; 0 <= at && at < 80 && found == side->fields; at += step) found = seek_chapter(side, (uint32_t)at);
    return found;
}
static size_t search(const Side *side, int is_chapter, const char *place, uint32_t *is_lacking) {
    uint32_t n[4], counted = LDVBI_PICTURES, rate = side->system == LDVBI_NTSC ? 30 : 25;
    int end, parts = sscanf(place, "%5u%n:%2u:%2u.%2u%n", n, &end, n + 1, n + 2, n + 3, &end);
    require(place[strspn(place, "0123456789:.")] == '\0' && (parts == 1 ? !is_chapter || n[0] < 80 : parts == 4 &&
            !is_chapter && n[0] < 10 && n[1] < 60 && n[2] < 60 && n[3] < rate) && place[end] == '\0', "no such place");
    if (parts == 4) counted = LDVBI_TIMES, n[0] = ((n[0] * 60 + n[1]) * 60 + n[2]) * rate + n[3];
    if (is_chapter) return *is_lacking = seek_chapter(side, n[0]) == side->fields, chapter_from(side, (int)n[0], 1);
    LdvbiSought sought;
    check(ldvbi_seek(side->system, side->black, side->white, counted, LDVBI_FIND_PACE, side->bytes, side->length, n[0],
                     &sought));
    if (!(*is_lacking = sought.field == side->fields)) return sought.field;
    LdvbiNeighbour low = sought.before, high = sought.after; /* what to show in its place: the nearer one, if any */
    return high.field == side->fields || (low.field < side->fields &&
           n[0] - low.number.number <= high.number.number - n[0]) ? low.field : high.field;
}
static size_t stop_from(const Side *side, size_t field, size_t most) {
    LdvbiPlace at;
    check(ldvbi_next_stop(side->system, side->black, side->white, side->bytes, side->length, field, most, &at));
    return at.field;
}
static size_t next_stop(const Side *side, size_t field) { /* the first one, if all fields of a picture have its stop */
    uint32_t last, now;
    size_t stop = field;
    do stop = stop_from(side, (field = stop) + 1, side->fields);
    while (stop == field + 1 && stop < side->fields && stop_from(side, field, 1) == field &&
           !(has_picture(side, stop, &now) && !(has_picture(side, field, &last) && last == now)));
    return stop;
}
int main(int count, char **words) {
    require(count > 3, "usage: player FILE MAP search PLACE|chapter N|next|previous|play|still ..");
    Side side = open_side(words[1], words[2]);
    uint32_t picture, is_lacking, is_missed = 0;
    size_t shown = 0, field;
    for (char **word = words + 3; *word; word++) {
        const char *name = (is_lacking = 0, *word);
        if (strcmp(name, "search") == 0 || strcmp(name, "chapter") == 0)
            field = search(&side, *name == 'c', word[1] ? *++word : "-", &is_lacking);
        else if (strcmp(name, "next") == 0 || strcmp(name, "previous") == 0)
            field = chapter_from(&side, chapter_of(&side, shown) + (*name == 'n' ? 1 : -1), *name == 'n' ? 1 : -1);
        else if (strcmp(name, "play") == 0) field = next_stop(&side, shown);
        else require(strcmp(name, "still") == 0, "no such command"), field = shown;
        is_lacking |= field == side.fields;
        printf("%s:%s", name, is_lacking ? " not found" : "");
        if (field < side.fields) printf("%s field %zu", is_lacking ? "," : "", (shown = field) + 1);
        if (field < side.fields && has_picture(&side, field, &picture)) printf(" picture %u", picture);
        is_missed |= is_lacking, puts("");
    }
    return (int)is_missed;
}
