/* The nearest word of a line as one writes it from its definition: start by start, by sums of what the columns before
   each column cost. A column costs seven tenths of what white is from black at most, rounded up. */

enum { CELLS = 24, WIDEST = 1135 };

typedef struct {
    uint32_t samples, numerator, denominator; /* of a line; of a microsecond, as a fraction */
} PlainSystem;

typedef struct {
    uint32_t word, start;
    uint64_t distance, rival;
} PlainNear;

static const PlainSystem plain_ntsc = {910, 315, 22}, plain_pal = {1135, 709379, 40000};

static uint64_t plain_cost(int sample, int drawn, int most)
{
    int off = abs(sample - drawn);

    return (uint64_t)(off < most ? off : most);
}

static PlainNear plain_nearer(PlainNear one, PlainNear other)
{
    if (other.distance < one.distance) {
        PlainNear kept = one;

        one = other;
        other = kept;
    }
    uint64_t rival = other.word == one.word ? other.rival : other.distance;

    if (rival < one.rival)
        one.rival = rival;
    return one;
}

/* The nearest of the words that begin at this column. */
static PlainNear plain_near_at(uint32_t start, const uint32_t *bounds, const uint64_t *dark, const uint64_t *light,
                               uint32_t width)
{
    uint32_t word = 0;
    uint64_t margin = UINT64_MAX, total = dark[start] + dark[width] - dark[start + bounds[2 * CELLS]];

    for (uint32_t cell = 0; cell < CELLS; cell++) {
        uint32_t begin = start + bounds[2 * cell], middle = start + bounds[2 * cell + 1];
        uint32_t end = start + bounds[2 * cell + 2];
        uint64_t one = dark[middle] - dark[begin] + light[end] - light[middle];
        uint64_t zero = light[middle] - light[begin] + dark[end] - dark[middle];
        uint64_t apart = one < zero ? zero - one : one - zero;
        uint32_t bit = cell == 0 || one < zero;

        word = 2 * word + bit;
        total += bit ? one : zero;
        if (cell && apart < margin)
            margin = apart;
    }
    return (PlainNear){word, start, total, total + margin};
}

/* The nearest word of a line, or none. */
static PlainNear plain_nearest(const PlainSystem *system, int black, int white, const uint8_t *line)
{
    uint32_t bounds[2 * CELLS + 1], width = system->samples;
    uint64_t dark[WIDEST + 1] = {0}, light[WIDEST + 1] = {0};
    int most = (7 * (white - black) + 9) / 10;

    for (uint32_t half = 0; half <= 2 * CELLS; half++)
        bounds[half] = (uint32_t)(half * (uint64_t)system->numerator / system->denominator);
    for (uint32_t column = 0; column < width; column++) {
        int sample = line[2 * column] | line[2 * column + 1] << 8;

        dark[column + 1] = dark[column] + plain_cost(sample, black, most);
        light[column + 1] = light[column] + plain_cost(sample, white, most);
    }
    PlainNear best = {0, 0, dark[width], UINT64_MAX};

    for (uint32_t start = 0; start + bounds[2 * CELLS] <= width; start++)
        best = plain_nearer(best, plain_near_at(start, bounds, dark, light, width));
    return best;
}
