/* A sheet of 96 x 64 pixels: a background, two fills, a line, a row of glyphs and a glyph, drawn by register writes, and a small third fill that comes in
   command packets; saved as a PPM picture. Of each drawing it says how many pixels were written and how many of them changed; the second fill is done
   again, and changes none. The packets are cut in two within a word, and of each piece it says how many answers came.

   On x86-64:
       (cd crates/capi && rt lib)
       cc -O2 c/example.c crates/capi/out/libcapi.a -o example
   For 64-bit Arm the kit, which itself runs on x86-64, makes the same library by
       (cd crates/capi && rt lib --target aarch64-unknown-linux-gnu)
   and the second line is then given on the Arm machine, or to a compiler for it.
   Then:
       ./example sheet.ppm */
#include <stdio.h>
#include <stdlib.h>

#include "rimebarrow.h"

enum { WIDTH = 96, HEIGHT = 64, STRIDE = WIDTH * 4, MEMORY = STRIDE * HEIGHT };
enum {
    CLIP0_MAX = 0x0c, DST_BASE = 0x10, DST_FORMAT = 0x14, SRC_FORMAT = 0x54, SRC_XY = 0x5c, COLOR_BACK = 0x60, COLOR_FORE = 0x64,
    DST_SIZE = 0x68, DST_XY = 0x6c, COMMAND = 0x70, LAUNCH = 0x80
};

/* ROP CC: a plain copy. 3 is a host blit, 5 a fill, 6 a line; 32 bits a pixel is format 5. By bit 10 dstXY moves right by the width of what was drawn. */
enum { FORMAT_32 = 5 << 16, PACKED_BYTES = 1 << 22, MOVE_RIGHT = 1 << 10 };
static const uint32_t HOST_BLIT = 0xcc000003, FILL = 0xcc000005, LINE = 0xcc000006;

static uint8_t state[RIMEBARROW_STATE_SIZE];
static uint8_t reader[RIMEBARROW_READER_SIZE];
static uint8_t memory[MEMORY];

static uint32_t both(uint32_t x, uint32_t y) { return y << 16 | x; }

/* The pixels that were written since the last report, and how many of them changed. */
static uint64_t written, changed;

/* Writes a register, and stops with the number of the answer where it is refused. */
static void out(uint32_t offset, uint32_t word)
{
    uint32_t differ;
    uint64_t answer = rimebarrow_write(state, sizeof state, memory, sizeof memory, offset, word, &differ);
    if (rimebarrow_number(answer) != 0) {
        fprintf(stderr, "write of %08x to %02x refused: %u\n", (unsigned)word, (unsigned)offset, (unsigned)rimebarrow_number(answer));
        exit(1);
    }
    written += rimebarrow_value(answer);
    changed += differ;
}

/* Sends words to the launch area in one run, and stops likewise. */
static void out_run(const uint32_t *words, size_t many)
{
    size_t taken;
    uint64_t count, differ;
    uint32_t number = rimebarrow_run(state, sizeof state, memory, sizeof memory, words, many, &taken, &count, &differ);
    if (number != 0) {
        fprintf(stderr, "word %zu of a run refused: %u\n", taken, (unsigned)number);
        exit(1);
    }
    written += count;
    changed += differ;
}

/* Sends a piece of command packets, at most six words of them, and stops likewise. Each register write has an answer of three words. */
static void out_packets(const uint8_t *piece, size_t length)
{
    uint32_t answers[3 * 6];
    size_t used, answered;
    if (rimebarrow_packets(reader, sizeof reader, state, sizeof state, memory, sizeof memory, piece, length, answers, 3 * 6, &used, &answered) != 0)
        exit(1);
    for (size_t k = 0; k < answered; k++) {
        if (answers[3 * k] != 0) {
            fprintf(stderr, "write %zu of a piece refused: %u\n", k, (unsigned)answers[3 * k]);
            exit(1);
        }
        written += answers[3 * k + 1];
        changed += answers[3 * k + 2];
    }
    printf("packets: %zu of %zu bytes used, writes answered: %zu\n", used, length, answered);
}

static void report(const char *what)
{
    printf("%s: %llu pixels, %llu changed\n", what, (unsigned long long)written, (unsigned long long)changed);
    written = changed = 0;
}

static void fill(uint32_t x, uint32_t y, uint32_t w, uint32_t h, uint32_t colour)
{
    out(COLOR_FORE, colour);
    out(DST_SIZE, both(w, h));
    out(COMMAND, FILL);
    out(LAUNCH, both(x, y));
}

/* The bit of a register in the mask of a packet's header. */
static uint32_t bit(uint32_t offset) { return UINT32_C(8) << (offset - 8) / 4; }

/* A fill by two packets, low byte first: of type 2, words for the registers of a mask, and of type 1, one word for the launch area. The first piece ends
   after a byte of dstSize, which the reader holds until the others are there. */
static void fill_by_packets(uint32_t x, uint32_t y, uint32_t w, uint32_t h, uint32_t colour)
{
    const uint32_t words[6] = {bit(COLOR_FORE) | bit(DST_SIZE) | bit(COMMAND) | 2, colour, both(w, h), FILL, 1 << 16 | 1 << 14 | LAUNCH << 1 | 1, both(x, y)};
    uint8_t bytes[sizeof words];
    for (size_t k = 0; k < sizeof bytes; k++)
        bytes[k] = (uint8_t)(words[k / 4] >> k % 4 * 8);
    out_packets(bytes, 9);
    out_packets(bytes + 9, sizeof bytes - 9);
}

static void line(uint32_t x0, uint32_t y0, uint32_t x1, uint32_t y1, uint32_t colour)
{
    out(COLOR_FORE, colour);
    out(SRC_XY, both(x0, y0));
    out(COMMAND, LINE);
    out(LAUNCH, both(x1, y1));
}

/* One, two or three Rs of 8 x 7 bits, a byte a row, the leftmost pixel in the high bit; each is two words of data, low byte first. All go in one run: a
   word after the end of one opens the next, where dstXY then is. */
static void glyphs(uint32_t x, uint32_t y, size_t many, uint32_t move, uint32_t fore, uint32_t back)
{
    static const uint32_t words[6] = {0x7c66667c, 0x0066666c, 0x7c66667c, 0x0066666c, 0x7c66667c, 0x0066666c};
    out(COLOR_FORE, fore);
    out(COLOR_BACK, back);
    out(SRC_FORMAT, PACKED_BYTES);
    out(SRC_XY, 0);
    out(DST_SIZE, both(8, 7));
    out(DST_XY, both(x, y));
    out(COMMAND, HOST_BLIT | move);
    out_run(words, 2 * many);
}

static void save(const char *path)
{
    FILE *f = fopen(path, "wb");
    if (!f) {
        perror(path);
        exit(1);
    }
    fprintf(f, "P6\n%d %d\n255\n", WIDTH, HEIGHT);
    for (uint32_t y = 0; y < HEIGHT; y++) {
        size_t start, count;
        if (rimebarrow_view(memory, sizeof memory, 0, FORMAT_32 | STRIDE, 0, y, WIDTH, &start, &count) != 0)
            exit(1);
        for (size_t i = start; i < start + count; i += 4) {
            const uint8_t rgb[3] = {memory[i + 2], memory[i + 1], memory[i]};
            fwrite(rgb, 1, 3, f);
        }
    }
    fclose(f);
}

int main(int argc, char **argv)
{
    const char *path = argc > 1 ? argv[1] : "sheet.ppm";
    if (rimebarrow_open(state, sizeof state, sizeof memory) != 0 || rimebarrow_reader(reader, sizeof reader) != 0)
        return 1;
    out(CLIP0_MAX, both(WIDTH, HEIGHT));
    out(DST_BASE, 0);
    out(DST_FORMAT, FORMAT_32 | STRIDE);
    fill(0, 0, WIDTH, HEIGHT, 0x00f0ece0);
    report("background");
    fill(8, 8, 40, 24, 0x00b03030);
    report("first fill");
    fill(40, 24, 48, 32, 0x003060a0);
    report("second fill");
    fill(40, 24, 48, 32, 0x003060a0);
    report("the same again");
    fill_by_packets(54, 4, 18, 10, 0x00408040);
    report("third fill");
    line(4, 60, 90, 4, 0x00202020);
    report("line");
    glyphs(56, 56, 3, MOVE_RIGHT, 0x00b03030, 0x00ffffff);
    report("row of glyphs");
    glyphs(12, 44, 1, 0, 0x00000000, 0x00ffffff);
    report("glyph");
    printf("dstXY reads %08x\n", (unsigned)rimebarrow_value(rimebarrow_read(state, sizeof state, DST_XY)));
    save(path);
    printf("saved %s\n", path);
    return 0;
}
