/* The judge of picture numbers as one writes it without the library: for each number of a field both sums over the
   fields around it, and for each field without a believed number the nearest ones whole pictures away that have one. */

enum { REACH = 24, ENOUGH = 10 };

static LdvbiSighting plain_sighting(const LdvbiReading *line)
{
    LdvbiSighting sighting = {0, 0};
    LdvbiCode code = plain_code(line->word);

    if (line->word != 0 && code.kind == LDVBI_PICTURE) {
        sighting.number = code.first;
        sighting.weight = line->pass == 2 || line->pass == 3 ? 1 : 2;
    }
    return sighting;
}

static int is_plainly_instead(const LdvbiReading *line)
{
    uint32_t kind = plain_code(line->word).kind;

    return line->word != 0 && (kind == LDVBI_CHAPTER || kind == LDVBI_LEAD_IN || kind == LDVBI_LEAD_OUT ||
                               kind == LDVBI_TIME);
}

static int fits_plainly(uint32_t pace, long fields, long pictures)
{
    if (pace == LDVBI_VIDEO)
        return fields == 2 * pictures;
    return labs(2 * fields - 5 * pictures) <= 2;
}

static uint32_t plain_support(uint32_t pace, const LdvbiSightings *seen, size_t count, size_t field, uint32_t number)
{
    size_t begin = field < REACH ? 0 : field - REACH, end = count - field <= REACH ? count : field + REACH + 1;
    uint32_t running = 0, still = 0;

    for (size_t other = begin; other < end; other++)
        for (int line = 17; line <= 18; line++) {
            const LdvbiSighting *sighting = line == 17 ? &seen[other].line_17 : &seen[other].line_18;
            long pictures = (long)sighting->number - (long)number, fields = (long)other - (long)field;

            if (sighting->weight != 0 && fits_plainly(pace, fields, pictures))
                running += sighting->weight;
            if (pictures == 0 && fields % 2 == 0)
                still += sighting->weight;
        }
    still = still > 4 ? still - 4 : 0;
    return running > still ? running : still;
}

/* What is believed of a field, or else what it shows in doubt. */
static LdvbiNumber plain_belief(uint32_t pace, const LdvbiSightings *seen, size_t count, size_t field)
{
    LdvbiSighting first = seen[field].line_17, second = seen[field].line_18;
    uint32_t of_first = first.weight == 0 ? 0 : plain_support(pace, seen, count, field, first.number), of_second = 0;
    LdvbiNumber answer = {first.weight == 0 ? second.number : first.number, LDVBI_DOUBTFUL};

    if (first.weight == 0 && second.weight == 0)
        answer.state = LDVBI_NOTHING;
    if (second.weight != 0 && (first.weight == 0 || first.number != second.number))
        of_second = plain_support(pace, seen, count, field, second.number);
    if (of_first >= ENOUGH && of_first > of_second) {
        answer.state = LDVBI_BELIEVED;
    } else if (of_second >= ENOUGH && of_second > of_first) {
        answer.number = second.number;
        answer.state = LDVBI_BELIEVED;
    }
    return answer;
}

/* The nearest field with a believed number, in steps of whole pictures; `count` where there is none within reach. */
static size_t plain_neighbour(const LdvbiNumber *numbers, size_t count, size_t field, int step)
{
    for (int distance = step; abs(distance) <= REACH; distance += step) {
        size_t other = field + (size_t)distance; /* wraps round below the first one */

        if (other >= count)
            return count;
        if (numbers[other].state == LDVBI_BELIEVED)
            return other;
    }
    return count;
}

/* Whether the believed numbers between two fields are near enough to this one. */
static int are_near(uint32_t pace, const LdvbiNumber *numbers, size_t before, size_t after, size_t field, long number)
{
    long slack = after - before <= 8;

    for (size_t other = before + 1; other < after; other++) {
        long fields = (long)other - (long)field, pictures = (long)numbers[other].number - number;

        if (numbers[other].state == LDVBI_BELIEVED && !(pace == LDVBI_VIDEO ? labs(fields - 2 * pictures) <= slack
                                                                            : fits_plainly(pace, fields, pictures)))
            return 0;
    }
    return 1;
}

static void plain_due(uint32_t pace, LdvbiNumber *numbers, size_t count, size_t field)
{
    int fields = pace == LDVBI_VIDEO ? 2 : 5, pictures = pace == LDVBI_VIDEO ? 1 : 2;
    size_t before = plain_neighbour(numbers, count, field, -fields);
    size_t after = plain_neighbour(numbers, count, field, fields);

    if (before == count || after == count)
        return;
    long number = (long)numbers[before].number + (long)(field - before) / fields * pictures;
    if (number + (long)(after - field) / fields * pictures != (long)numbers[after].number)
        return;
    if (are_near(pace, numbers, before, after, field, number)) {
        numbers[field].number = (uint32_t)number;
        numbers[field].state = LDVBI_DUE;
    }
}

static int is_shown_twice(const LdvbiSightings *seen)
{
    return seen->line_17.weight == 2 && seen->line_18.weight == 2 && seen->line_17.number == seen->line_18.number;
}

static size_t plain_count(uint32_t pace, const LdvbiSightings *seen, size_t count)
{
    size_t believed = 0;

    for (size_t field = 0; field < count; field++)
        believed += plain_belief(pace, seen, count, field).state == LDVBI_BELIEVED;
    return believed;
}

static void plain_judge(uint32_t pace, const LdvbiFieldReadings *readings, size_t count, LdvbiSightings *seen,
                        LdvbiNumber *numbers)
{
    for (size_t field = 0; field < count; field++) {
        const LdvbiReading *lines = readings[field].lines;

        seen[field].line_17 = plain_sighting(&lines[1]);
        seen[field].line_18 = plain_sighting(&lines[2]);
        seen[field].instead = is_plainly_instead(&lines[1]) || is_plainly_instead(&lines[2]);
    }
    if (pace == LDVBI_FIND_PACE)
        pace = 10 * plain_count(LDVBI_FILM, seen, count) > 11 * plain_count(LDVBI_VIDEO, seen, count) ? LDVBI_FILM
                                                                                                      : LDVBI_VIDEO;
    for (size_t field = 0; field < count; field++)
        numbers[field] = plain_belief(pace, seen, count, field);
    for (size_t field = 0; field < count; field++)
        if (numbers[field].state != LDVBI_BELIEVED && seen[field].instead == 0 && !is_shown_twice(&seen[field]))
            plain_due(pace, numbers, count, field);
}
