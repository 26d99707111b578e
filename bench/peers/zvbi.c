/* Reads words by libzvbi's bit slicer: lines of 910 samples of 8 bits on standard input, and for each line six
 * hexadecimal digits or `none` on standard output.
 *
 * The slicer wants a run-in, which a LaserDisc's word doesn't have. Its first bit is 1 on every disc, so three low half
 * cells and a high one are taken for it: the lows before the word, and the first cell. The other 23 bits are sliced in
 * the middle of the first half of their cells, which is low for a one.
 */
#include <libzvbi.h>
#include <stdio.h>

enum { WIDTH = 910, RATE = 14318182, HALF_CELLS = 1000000, CELLS = 500000, BITS = 23 };

int main(void)
{
    /* one sample more, since the slicer looks at the one after */
    static uint8_t line[WIDTH + 1];
    while (fread(line, 1, WIDTH, stdin) == WIDTH) {
        uint8_t bits[4] = {0};
        vbi_bit_slicer slicer;
        /* anew for each line: what the slicer learns of levels drifts away on edges as steep as drawn ones */
        vbi_bit_slicer_init(&slicer, WIDTH, RATE, HALF_CELLS, CELLS, 0x1, 0xF, 4, 0, BITS,
                            VBI_MODULATION_BIPHASE_MSB, VBI_PIXFMT_YUV420);
        line[WIDTH] = line[WIDTH - 1];
        if (!vbi_bit_slice(&slicer, line, bits)) {
            puts("none");
            continue;
        }
        unsigned highs = (unsigned)bits[0] << 15 | (unsigned)bits[1] << 7 | (bits[2] & 0x7Fu);
        printf("%06X\n", 0x800000u | (~highs & 0x7FFFFFu));
    }
    return 0;
}
