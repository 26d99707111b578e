/* The plain reader of a line, as the function READER: the word that it shows, or 0, with the same tolerances as the
   library's and no cause. BYTES are those of the line; LEAST and MOST are the fewest and the most samples of a half
   cell. The reader of each system is compiled by itself, as if it were written for that one alone. */

/* Whether a word can be shown still, after the run has ended. */
static int TURN(Runs *runs, int high)
{
    int is_single = LEAST <= runs->run && runs->run <= MOST;
    int is_double = 2 * LEAST <= runs->run && runs->run <= 2 * MOST;

    if (runs->cells == 0) {
        if (runs->run < LEAST)
            return 0;
        runs->word = 1, runs->cells = 1, runs->middle = 1;
    } else if (is_single && runs->middle) {
        runs->middle = 0;
    } else if (is_single || (is_double && runs->middle)) {
        runs->word = runs->word << 1 | (uint32_t)high;
        runs->cells++;
        runs->middle = 1;
    } else {
        return 0;
    }
    runs->high = high;
    runs->run = 1;
    return runs->cells <= 24;
}

static uint32_t READER(const uint8_t *line)
{
    Runs runs = {0, 0, 0, 0, 0};

    for (size_t at = 0; at < BYTES; at += 2) {
        int high = (line[at] | line[at + 1] << 8) > 33792;

        if (high == runs.high)
            runs.run++;
        else if (!TURN(&runs, high))
            return 0;
    }
    return runs.cells == 24 && !runs.high && (!runs.middle || runs.run >= LEAST) ? runs.word : 0;
}

#undef READER
#undef TURN
#undef BYTES
#undef LEAST
#undef MOST
