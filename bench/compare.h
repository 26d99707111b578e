/* Times two ways to do the same, ROUNDS times each. */

/* What a call returns is what the rest of a program goes on with. */
static uint32_t sum;

static void done(uint32_t status)
{
    if (status != LDVBI_DONE) {
        fprintf(stderr, "bench: %s\n", ldvbi_status_text(status));
        exit(1);
    }
}

/* Nanoseconds of two ways to do the same, in turn, and the ratio of the best times. Where others share the processors,
   a median says how busy these were; in the best of the rounds nothing else ran. */
static void compare(const char *name, size_t count, void (*ours)(void), void (*plain)(void))
{
    double library[ROUNDS], beside[ROUNDS];

    for (size_t i = 0; i < ROUNDS; i++) {
        uint32_t before = sum, found;
        double begin = seconds(), middle;

        ours();
        middle = seconds();
        found = sum - before;
        plain();
        beside[i] = (seconds() - middle) * 1e9 / (double)count;
        library[i] = (middle - begin) * 1e9 / (double)count;
        if (sum - before != 2 * found) {
            fprintf(stderr, "bench: %s: the two differ\n", name);
            exit(1);
        }
    }
    double middle_of_ours = median(library, ROUNDS), middle_of_theirs = median(beside, ROUNDS);
    printf("%-32s best %6.1f ns, median %6.1f; beside it %6.1f, %6.1f; ratio %.2f\n", name, library[0], middle_of_ours,
           beside[0], middle_of_theirs, library[0] / beside[0]);
}
