/* The driver of the bench: each case is run by the engine, by plain C, and where there is one by pixman and by memset or memmove, in turns; the best
   time of each counts. Before that, engine and plain C run the case twice on the same memory, and what they leave must be equal, and so must be the numbers
   of pixels that they wrote and changed; with packets also the answers one by one, and the registers. */
#define _GNU_SOURCE
#include <pixman.h>
#include <pthread.h>
#include <stdio.h>
#include <stdlib.h>
#include <string.h>
#include <time.h>

#include "../c/rimebarrow.h"
#include "plain.h"

enum { MEMORY = 1 << 24, SOURCE = 1 << 23, RUNS = 7, GLYPHS = 64 };
enum { LONGEST = 0xffff, EIGHTS = 1820, BLOCKS = 2048, BLOCK_WRITES = 114 }; /* packets: see there */
enum {
    clip0Min = 0x08, clip0Max = 0x0c, dstBaseAddr = 0x10, dstFormat = 0x14, srcColorkeyMin = 0x18, srcColorkeyMax = 0x1c, dstColorkeyMin = 0x20, dstColorkeyMax = 0x24, rop = 0x30, srcBaseAddr = 0x34,
    commandExtra = 0x38, lineStipple = 0x3c, lineStyle = 0x40, clip1Max = 0x50, srcFormat = 0x54, srcSize = 0x58, srcXY = 0x5c, colorBack = 0x60,
    colorFore = 0x64, dstSize = 0x68, dstXY = 0x6c, command = 0x70, launch = 0x80, pattern = 0x100
};

static uint8_t state[RIMEBARROW_STATE_SIZE];
static uint8_t *ours, *theirs, *start; /* the engine's memory, plain C's, and what both start from */
static const u32 FORE = 0x00c08040, BACK = 0x00204060, LOW = 0x00204020, HIGH = 0x00c0f0c0;
static u32 pixel_code[5] = {0, 1, 3, 4, 5};
static u8 patterns[256];
static struct plain_regs plain_registers;
static struct plain_pen pen;

/* A case at one size of pixel and one size of picture. */
static int bytes;
static u32 n, stride;
static u32 sink;
static struct plain_drawn by_engine, by_plain; /* pixels written and changed so far */

static u32 rand_state = 12345;
static u32 next_random(void)
{
    rand_state = rand_state * 1664525u + 1013904223u;
    return rand_state >> 8;
}

static void out(u32 offset, u32 word)
{
    uint32_t changed;
    uint64_t a = rimebarrow_write(state, sizeof state, ours, MEMORY, offset, word, &changed);
    if (a >> 32) {
        fprintf(stderr, "bench: write %x to %x refused with %u\n", word, offset, rimebarrow_number(a));
        exit(1);
    }
    by_engine.count += rimebarrow_value(a);
    by_engine.changed += changed;
}

/* A run of words to the launch area, all of which must be taken. */
static void out_run(const u32 *words, size_t many)
{
    size_t taken;
    uint64_t count, changed;
    uint32_t number = rimebarrow_run(state, sizeof state, ours, MEMORY, words, many, &taken, &count, &changed);
    if (number || taken != many) {
        fprintf(stderr, "bench: of a run of %zu words %zu were taken, answered with %u\n", many, taken, number);
        exit(1);
    }
    by_engine.count += count;
    by_engine.changed += changed;
}

static void drew(struct plain_drawn d)
{
    by_plain.count += d.count;
    by_plain.changed += d.changed;
}

static struct plain_surface target(void) { return (struct plain_surface){theirs, stride}; }
static struct plain_surface source(void) { return (struct plain_surface){theirs + SOURCE, stride}; }
static u32 both(u32 a, u32 b) { return b << 16 | a; }

/* What every case has in common: the target, the clip, the colours, the pattern. */
static void registers(u32 row)
{
    stride = row;
    rimebarrow_open(state, sizeof state, MEMORY);
    out(clip0Max, both(0xfff, 0xfff));
    out(dstBaseAddr, 0);
    out(dstFormat, pixel_code[bytes] << 16 | stride);
    out(srcBaseAddr, SOURCE);
    out(srcFormat, pixel_code[bytes] << 16 | stride);
    out(colorFore, FORE);
    out(colorBack, BACK);
    out(dstSize, both(n, n));
    for (u32 i = 0; i < 256; i += 4)
        out(pattern + i, patterns[i] | patterns[i + 1] << 8 | patterns[i + 2] << 16 | (u32)patterns[i + 3] << 24);
}

/* ---- the cases: set up, by the engine, by plain C, by pixman, by the C library */

static void fill_set(void) { registers(n * bytes); out(command, 0xcc000005); }
static void launch_at_0(void) { out(launch, 0); }
static void fill_plain(void) { drew(plain_fill(bytes, target(), 0, 0, n, n, FORE)); }
static int fill_pixman(void)
{
    u32 xor = bytes == 1 ? FORE & 255 : bytes == 2 ? FORE & 0xffff : FORE;
    return pixman_fill((uint32_t *)theirs, stride / 4, bytes * 8, 0, 0, n, n, xor);
}
static int fill_limit(void)
{
    for (u32 j = 0; j < n; j++)
        memset(theirs + (size_t)j * stride, 0x40, (size_t)n * bytes);
    return 1;
}

static void xor_set(void) { registers(n * bytes); out(command, 0x5a000005); }
static void xor_plain(void) { drew(plain_pattern_xor(bytes, target(), 0, 0, n, n, patterns)); }

static void mono_pattern_set(void) { registers(n * bytes); out(command, 0xf0012005); }
static void mono_pattern_plain(void) { drew(plain_pattern_mono(bytes, target(), 0, 0, n, n, patterns, FORE)); }

static void copy_set(void) { registers(n * bytes); out(command, 0xcc000001); }
static void copy_plain(void) { drew(plain_copy(bytes, target(), source(), 0, 0, n, n)); }
static int copy_pixman(void)
{
    return pixman_blt((uint32_t *)(theirs + SOURCE), (uint32_t *)theirs, stride / 4, stride / 4, bytes * 8, bytes * 8, 0, 0, 0, 0, n, n);
}
static int copy_limit(void)
{
    for (u32 j = 0; j < n; j++)
        memmove(theirs + (size_t)j * stride, theirs + SOURCE + (size_t)j * stride, (size_t)n * bytes);
    return 1;
}

/* to the right and down, from the lower right corner: a move */
static void over_set(void)
{
    registers((n + 8) * bytes);
    out(srcBaseAddr, 0);
    out(dstXY, both(n + 4, n + 2));
    out(command, 0xcc00c001);
}
static void over_ours(void) { out(launch, both(n - 1, n - 1)); }
static void over_plain(void) { drew(plain_copy_over(bytes, target(), 0, 0, 5, 3, n, n)); }
static int over_limit(void)
{
    for (u32 j = n; j-- > 0;)
        memmove(theirs + (size_t)(j + 3) * stride + 5 * bytes, theirs + (size_t)j * stride, (size_t)n * bytes);
    return 1;
}

/* onto the right-hand neighbour, from the upper left corner: the first column spreads */
static void smear_set(void)
{
    registers((n + 8) * bytes);
    out(srcBaseAddr, 0);
    out(dstXY, both(1, 0));
    out(command, 0xcc000001);
}
static void smear_plain(void) { drew(plain_smear(bytes, target(), n, n)); }

static void key_set(void)
{
    registers(n * bytes);
    out(srcColorkeyMin, LOW);
    out(srcColorkeyMax, HIGH);
    out(rop, 0x00aa00);
    out(commandExtra, 1);
    out(command, 0xcc000001);
}
static void key_plain(void) { drew(plain_copy_key(bytes, target(), source(), 0, 0, n, n, LOW, HIGH)); }

static void invert_set(void) { registers(n * bytes); out(command, 0x66000001); }
static void invert_plain(void) { drew(plain_copy_xor(bytes, target(), source(), 0, 0, n, n)); }

static void into_key_set(void)
{
    registers(n * bytes);
    out(dstColorkeyMin, LOW);
    out(dstColorkeyMax, HIGH);
    out(rop, 0x0000cc);
    out(commandExtra, 2);
    out(command, 0xaa000001);
}
static void into_key_plain(void) { drew(plain_copy_into_key(bytes, target(), source(), 0, 0, n, n, LOW, HIGH)); }

static void widen_set(void)
{
    registers(n * 4);
    out(srcFormat, 3 << 16 | n * 2);
    out(command, 0xcc000001);
}
static void widen_plain(void)
{
    drew(plain_copy_16_32(target(), (struct plain_surface){theirs + SOURCE, n * 2}, 0, 0, n, n));
}

/* A square of the source to one of the target, by command 2. */
static void stretch_set(u32 from, u32 to)
{
    registers(n * bytes);
    out(srcSize, both(from, from));
    out(dstSize, both(to, to));
    out(command, 0xcc000002);
}
static void thumbnail_set(void) { stretch_set(n, n / 8); }
static void thumbnail_plain(void) { drew(plain_stretch(bytes, target(), source(), n / 8, n / 8, n, n)); }

static void enlarged_set(void) { stretch_set(n / 8, n / 2); }
static void enlarged_plain(void) { drew(plain_stretch(bytes, target(), source(), n / 2, n / 2, n / 8, n / 8)); }

static void thumbnail_16_set(void)
{
    stretch_set(n, n / 8);
    out(srcFormat, 5 << 16 | n * 4);
}
static void thumbnail_16_plain(void)
{
    drew(plain_stretch_32_16(target(), (struct plain_surface){theirs + SOURCE, n * 4}, n / 8, n / 8, n, n));
}

static void mono_set(void)
{
    registers(n * bytes);
    out(srcFormat, n / 8);
    out(command, 0xcc000001);
}
static void mono_plain(void)
{
    drew(plain_copy_mono(bytes, target(), (struct plain_surface){theirs + SOURCE, n / 8}, 0, 0, n, n, FORE, BACK));
}

static const u32 glyph[4] = {0x60c01f0e, 0x20c86044, 0x80f140e2, 0x0000e03b};
static void glyph_set(void)
{
    registers(1024 * bytes);
    out(srcFormat, 1 << 22);
    out(dstSize, both(11, 7));
    out(command, 0xcc000003);
}
static void glyph_ours(void)
{
    for (u32 g = 0; g < GLYPHS; g++) {
        out(dstXY, both(g * 12, 3));
        for (int k = 0; k < 4; k++)
            out(launch, glyph[k]);
    }
}
static void glyph_plain(void)
{
    for (u32 g = 0; g < GLYPHS; g++) {
        struct plain_blit b;
        plain_blit_open(&b, bytes, target(), g * 12, 3, 11, 7, FORE, BACK);
        for (int k = 0; k < 4; k++)
            drew(plain_blit_mono(&b, glyph[k]));
    }
}

/* the same glyphs, the words of each in one run */
static void glyph_run_ours(void)
{
    for (u32 g = 0; g < GLYPHS; g++) {
        out(dstXY, both(g * 12, 3));
        out_run(glyph, 4);
    }
}
static void glyphs_plain(u32 step)
{
    for (u32 g = 0; g < GLYPHS; g++) {
        struct plain_blit b;
        plain_blit_open(&b, bytes, target(), g * step, 3, 11, 7, FORE, BACK);
        drew(plain_blit_mono_words(&b, glyph, 4));
    }
}
static void glyph_run_plain(void) { glyphs_plain(12); }

/* all glyphs in one run, side by side: by bit 10 of command dstXY moves by a glyph's width after each */
static u32 glyph_row[4 * GLYPHS];
static void glyph_row_set(void)
{
    glyph_set();
    out(command, 0xcc000403);
    for (u32 g = 0; g < GLYPHS; g++)
        memcpy(glyph_row + 4 * g, glyph, sizeof glyph);
}
static void glyph_row_ours(void)
{
    out(dstXY, both(0, 3));
    out_run(glyph_row, 4 * GLYPHS);
}
static void glyph_row_plain(void) { glyphs_plain(11); }

static void host_set(void)
{
    registers(n * bytes);
    out(srcFormat, pixel_code[bytes] << 16 | 1 << 22);
    out(command, 0xcc000003);
}
static void host_ours(void)
{
    const u32 *w = (const u32 *)(start + SOURCE);
    for (u32 k = 0; k < n * n / 4 * bytes; k++)
        out(launch, w[k]);
}
static void host_plain(void)
{
    const u32 *w = (const u32 *)(start + SOURCE);
    struct plain_blit b;
    plain_blit_open(&b, bytes, target(), 0, 0, n, n, FORE, BACK);
    for (u32 k = 0; k < n * n / 4 * bytes; k++)
        drew(plain_blit_word(&b, w[k]));
}
static void host_run_ours(void) { out_run((const u32 *)(start + SOURCE), n * n / 4 * bytes); }
static void host_run_plain(void)
{
    struct plain_blit b;
    plain_blit_open(&b, bytes, target(), 0, 0, n, n, FORE, BACK);
    drew(plain_blit_words(&b, (const u32 *)(start + SOURCE), n * n / 4 * bytes));
}

static struct plain_clip clip;
static void line_set_by(u32 word)
{
    registers(n * bytes);
    out(command, word);
    pen = (struct plain_pen){FORE, BACK, 0, 0, 0, 0, 0, 0};
    clip = (struct plain_clip){0, 0xfff, 0, 0xfff};
}
static void line_set(void) { line_set_by(0xcc000006); }
static void line_xor_set(void) { line_set_by(0x5a000006); }
/* an eighth of the square is cut off at each side */
static void line_clipped_set(void)
{
    line_set();
    clip = (struct plain_clip){n / 8, n - n / 8, n / 8, n - n / 8};
    out(clip0Min, both(n / 8, n / 8));
    out(clip0Max, both(n - n / 8, n - n / 8));
}
static void stipple_set(void)
{
    line_set_by(0xcc001006);
    out(lineStipple, 0xf0f0cc35);
    out(lineStyle, 0x00001f02);
    pen = (struct plain_pen){FORE, BACK, 0xf0f0cc35, 2, 31, 0, 0, 1};
}
static void line_ours(void)
{
    out(srcXY, 0);
    out(launch, both(n - 1, n * 5 / 8));
    out(srcXY, both(n - 1, 0));
    out(launch, both(n / 3, n - 1));
}
static void line_plain(void)
{
    drew(plain_line(bytes, target(), 0, 0, n - 1, n * 5 / 8, clip, &pen));
    drew(plain_line(bytes, target(), n - 1, 0, n / 3, n - 1, clip, &pen));
}
static void line_xor_plain(void)
{
    drew(plain_line_xor(bytes, target(), 0, 0, n - 1, n * 5 / 8, clip, &pen, patterns));
    drew(plain_line_xor(bytes, target(), n - 1, 0, n / 3, n - 1, clip, &pen, patterns));
}

/* on tiles: the target, the source, or both */
static u32 tiles_across(void) { return (n * bytes + 127) / 128; }
static void tiles_set(int to, int from, u32 word)
{
    registers(n * bytes);
    out(dstBaseAddr, (u32)to << 31);
    out(dstFormat, pixel_code[bytes] << 16 | (to ? tiles_across() : stride));
    out(srcBaseAddr, (u32)from << 31 | SOURCE);
    out(srcFormat, pixel_code[bytes] << 16 | (from ? tiles_across() : stride));
    out(command, word);
}
static struct plain_surface place(u8 *at, int tiles) { return (struct plain_surface){at, tiles ? tiles_across() : stride}; }
static void tiles_copy(int to, int from)
{
    drew(plain_tiles_copy(bytes, place(theirs, to), to, place(theirs + SOURCE, from), from, n, n));
}
static void tiles_fill_set(void) { tiles_set(1, 0, 0xcc000005); }
static void tiles_fill_plain(void) { drew(plain_tiles_fill(bytes, place(theirs, 1), n, n, FORE)); }
static void tiles_xor_set(void) { tiles_set(1, 0, 0x5a000005); }
static void tiles_xor_plain(void) { drew(plain_tiles_xor(bytes, place(theirs, 1), n, n, patterns)); }
static void tiles_copy_set(void) { tiles_set(1, 1, 0xcc000001); }
static void tiles_copy_plain(void) { tiles_copy(1, 1); }
static void tiles_invert_set(void) { tiles_set(1, 1, 0x66000001); }
static void tiles_invert_plain(void) { drew(plain_tiles_copy_xor(bytes, place(theirs, 1), place(theirs + SOURCE, 1), n, n)); }
static void to_tiles_set(void) { tiles_set(1, 0, 0xcc000001); }
static void to_tiles_plain(void) { tiles_copy(1, 0); }
static void from_tiles_set(void) { tiles_set(0, 1, 0xcc000001); }
static void from_tiles_plain(void) { tiles_copy(0, 1); }

/* ---- command packets: what is made by setting up is sent in pieces, and answered in a run that has room for a piece */

static u32 stream[(1 << 20) + 64]; /* the most is an image of 1024 x 1024 x 32 bits, with its headers */
static size_t stream_words;
static u32 answers[3 * (LONGEST + 1)];
static uint8_t reader[RIMEBARROW_READER_SIZE];
static struct plain_card card;
static int looking;                 /* answers are looked at before the timing, not within it */
static u64 engine_said, plain_said; /* the answers so far as one number, which speaks of their order too */

static void packet(u32 header, const u32 *words, u32 many)
{
    stream[stream_words++] = header;
    memcpy(stream + stream_words, words, many * 4);
    stream_words += many;
}
static void packet_to(u32 offset, const u32 *words, u32 many) { packet(many << 16 | 1 << 14 | offset << 1 | 1, words, many); }
static void packet_along(u32 offset, const u32 *words, u32 many) { packet(many << 16 | 3 << 14 | offset << 1 | 1, words, many); }
static void packet_masked(u32 mask, const u32 *words) { packet(mask << 3 | 2, words, __builtin_popcount(mask)); }
static u32 bit(u32 offset) { return 1u << (offset - 8) / 4; }

/* An empty stream and empty readers; plain C has the engine's registers, which lie in the state at their offsets. */
static void packets_open(void)
{
    stream_words = 0;
    rimebarrow_reader(reader, sizeof reader);
    card = (struct plain_card){.memory = theirs};
    memcpy(card.registers.at, state, command + 4);
}

static void look(struct plain_drawn *drawn, u64 *said, size_t answered)
{
    for (size_t k = 0; looking && k < 3 * answered; k += 3) {
        if (answers[k]) {
            fprintf(stderr, "bench: write %zu of a piece of packets refused with %u\n", k / 3, answers[k]);
            exit(1);
        }
        drawn->count += answers[k + 1];
        drawn->changed += answers[k + 2];
        *said = (*said * 31 + answers[k + 1]) * 31 + answers[k + 2] + 1;
    }
}

/* Whether packets left the same registers; the state has other words at 44 and 48. */
static int same_registers(void)
{
    return !memcmp(card.registers.at + clip0Min / 4, state + clip0Min, 0x44 - clip0Min) &&
           !memcmp(card.registers.at + 0x4c / 4, state + 0x4c, command + 4 - 0x4c);
}

/* The stream in pieces of so many bytes, all of which must be taken; each is given room for as many answers as it has words. */
static void out_packets(size_t most)
{
    for (size_t at = 0, used, answered; at < 4 * stream_words; at += used) {
        size_t many = 4 * stream_words - at < most ? 4 * stream_words - at : most;
        uint32_t number = rimebarrow_packets(reader, sizeof reader, state, sizeof state, ours, MEMORY, (const u8 *)stream + at, many, answers, most / 4 * 3,
                                             &used, &answered);
        if (number || used != many) {
            fprintf(stderr, "bench: of a piece of %zu bytes %zu were used, answered with %u\n", many, used, number);
            exit(1);
        }
        look(&by_engine, &engine_said, answered);
    }
}
static void plain_pieces(size_t most)
{
    u64 answered;
    for (size_t at = 0; at < 4 * stream_words; at += most) {
        size_t many = 4 * stream_words - at < most ? 4 * stream_words - at : most;
        plain_packets(&card, (const u8 *)stream + at, many, answers, most / 4, &answered);
        look(&by_plain, &plain_said, answered);
    }
}

/* a packet of the greatest length at once, or a shorter stream */
static void packets_ours(void) { out_packets(4 * (LONGEST + 1)); }
static void packets_plain(void) { plain_pieces(4 * (LONGEST + 1)); }

static void host_packets_set(void)
{
    host_set();
    packets_open();
    const u32 *w = (const u32 *)(start + SOURCE);
    for (u32 k = 0, all = n * n / 4 * bytes; k < all; k += LONGEST)
        packet_to(launch, w + k, all - k < LONGEST ? all - k : LONGEST);
}

/* 64 KiB of packets of eight words for registers that draw nothing, to consecutive addresses or by a mask */
static void eights_set(u32 mask)
{
    fill_set();
    packets_open();
    for (u32 k = 0; k < EIGHTS; k++) {
        const u32 *words = (const u32 *)(start + SOURCE) + 8 * k;
        if (mask)
            packet_masked(mask, words);
        else
            packet_along(clip1Max, words, 8);
    }
}
static void along_set(void) { eights_set(0); }
static void masked_set(void)
{
    eights_set(bit(clip0Min) | bit(clip0Max) | bit(dstFormat) | bit(rop) | bit(srcFormat) | bit(colorFore) | bit(dstSize) | bit(dstXY));
}

/* A block of a megabyte, 128 words of which 64 are data: two fills set up by masks, four glyphs with all their registers in a row, and an image of 48 words,
   in a cell of 64 x 32 pixels. 114 of its words are register writes, the others headers. */
static void block_of(u32 left, u32 top, const u32 *data)
{
    const u32 image[5] = {0, both(16, 12), both(12, 8), both(8, 8), both(8, 6)};
    for (u32 k = 0; k < 2; k++) {
        const u32 fill[6] = {0, both(0xfff, 0xfff), next_random(), next_random(), both(28, 8), 0xcc000005};
        const u32 at = both(left + 32 * k, top);
        packet_masked(bit(clip0Min) | bit(clip0Max) | bit(colorBack) | bit(colorFore) | bit(dstSize) | bit(command), fill);
        packet_to(launch, &at, 1);
    }
    for (u32 k = 0; k < 4; k++) {
        const u32 set[8] = {1 << 22, 0, 0, next_random(), next_random(), both(11, 7), both(left + 12 * k, top + 10), 0xcc000003};
        packet_along(srcFormat, set, 8);
        packet_to(launch, glyph, 4);
    }
    const u32 set[4] = {pixel_code[bytes] << 16 | 1 << 22, image[bytes], both(left, top + 18), 0xcc000003};
    packet_masked(bit(srcFormat) | bit(dstSize) | bit(dstXY) | bit(command), set);
    packet_to(launch, data, 48);
}
static void megabyte_set(void)
{
    registers(1024 * bytes);
    packets_open();
    for (u32 k = 0; k < BLOCKS; k++)
        block_of(k % 16 * 64, k / 16 % 16 * 32, (const u32 *)(start + SOURCE) + 48 * k);
}
static void megabyte_ours(void) { out_packets(4096); }
static void megabyte_plain(void) { plain_pieces(4096); }

static void write_ours(void)
{
    for (u32 k = 0; k < 64; k++)
        out(colorFore + k % 2 * 4, k);
}
static void write_plain(void)
{
    for (u32 k = 0; k < 64; k++)
        sink += plain_write(&plain_registers, colorFore + k % 2 * 4, k);
}

/* A register of a surface, of which the engine works out pixels and rows; here in rows of 7 and of 1,021 bytes at 24 bits. */
static void format_ours(void)
{
    for (u32 k = 0; k < 64; k++)
        out(dstFormat, k % 2 ? 0x403fd : 0x40007);
}
static void format_plain(void)
{
    for (u32 k = 0; k < 64; k++)
        sink += plain_write(&plain_registers, dstFormat, k % 2 ? 0x403fd : 0x40007);
}

struct work {
    const char *name;
    int sizes;     /* bit 0: 64, bit 1: 1024 */
    int formats;   /* bit b: b bytes a pixel */
    double unit;   /* pieces in one run, as the target's pixels of a stretched copy; 0: the pixels of the square, -1: the points of both lines */
    void (*set)(void), (*ours)(void), (*plain)(void);
    int (*pixman)(void), (*limit)(void);
};

static const struct work works[] = {
    {"solid fill", 3, 30, 0, fill_set, launch_at_0, fill_plain, fill_pixman, fill_limit},
    {"pattern fill 5A", 3, 30, 0, xor_set, launch_at_0, xor_plain, 0, 0},
    {"mono pattern, transparent", 3, 30, 0, mono_pattern_set, launch_at_0, mono_pattern_plain, 0, 0},
    {"plain copy", 3, 30, 0, copy_set, launch_at_0, copy_plain, copy_pixman, copy_limit},
    {"overlapping copy", 3, 30, 0, over_set, over_ours, over_plain, 0, over_limit},
    {"smear", 3, 30, 0, smear_set, launch_at_0, smear_plain, 0, 0},
    {"copy with source key", 3, 30, 0, key_set, launch_at_0, key_plain, 0, 0},
    {"copy 66", 3, 30, 0, invert_set, launch_at_0, invert_plain, 0, 0},
    {"copy with target key", 3, 30, 0, into_key_set, launch_at_0, into_key_plain, 0, 0},
    {"copy 16 to 32", 3, 16, 0, widen_set, launch_at_0, widen_plain, 0, 0},
    {"thumbnail 1/8 x 1/8", 2, 16, 128 * 128, thumbnail_set, launch_at_0, thumbnail_plain, 0, 0},
    {"thumbnail 32 to 16", 2, 4, 128 * 128, thumbnail_16_set, launch_at_0, thumbnail_16_plain, 0, 0},
    {"enlarged 4 x 4", 2, 16, 512 * 512, enlarged_set, launch_at_0, enlarged_plain, 0, 0},
    {"mono copy", 3, 30, 0, mono_set, launch_at_0, mono_plain, 0, 0},
    {"host glyph 11 x 7, mono", 1, 30, GLYPHS, glyph_set, glyph_ours, glyph_plain, 0, 0},
    {"host glyph, a run each", 1, 30, GLYPHS, glyph_set, glyph_run_ours, glyph_run_plain, 0, 0},
    {"host glyph row, one run", 1, 30, GLYPHS, glyph_row_set, glyph_row_ours, glyph_row_plain, 0, 0},
    {"host image", 3, 30, 0, host_set, host_ours, host_plain, 0, 0},
    {"host image, one run", 3, 30, 0, host_set, host_run_ours, host_run_plain, 0, 0},
    {"host image, packets", 3, 30, 0, host_packets_set, packets_ours, packets_plain, 0, 0},
    {"line", 3, 30, -1, line_set, line_ours, line_plain, 0, 0},
    {"stippled line", 3, 30, -1, stipple_set, line_ours, line_plain, 0, 0},
    {"line, clipped", 3, 30, -1, line_clipped_set, line_ours, line_plain, 0, 0},
    {"line 5A", 3, 30, -1, line_xor_set, line_ours, line_xor_plain, 0, 0},
    {"solid fill, tiles", 3, 30, 0, tiles_fill_set, launch_at_0, tiles_fill_plain, 0, 0},
    {"pattern fill 5A, tiles", 3, 30, 0, tiles_xor_set, launch_at_0, tiles_xor_plain, 0, 0},
    {"plain copy, tiles", 3, 30, 0, tiles_copy_set, launch_at_0, tiles_copy_plain, 0, 0},
    {"copy 66, tiles", 3, 30, 0, tiles_invert_set, launch_at_0, tiles_invert_plain, 0, 0},
    {"copy rows to tiles", 3, 30, 0, to_tiles_set, launch_at_0, to_tiles_plain, 0, 0},
    {"copy tiles to rows", 3, 30, 0, from_tiles_set, launch_at_0, from_tiles_plain, 0, 0},
    {"register write", 1, 16, 64, fill_set, write_ours, write_plain, 0, 0},
    {"dstFormat write", 1, 16, 64, fill_set, format_ours, format_plain, 0, 0},
    {"register write by packet", 1, 16, 8 * EIGHTS, along_set, packets_ours, packets_plain, 0, 0},
    {"register by mask packet", 1, 16, 8 * EIGHTS, masked_set, packets_ours, packets_plain, 0, 0},
    {"packets, a megabyte", 1, 30, BLOCKS * BLOCK_WRITES, megabyte_set, megabyte_ours, megabyte_plain, 0, 0},
};

static double now(void)
{
    struct timespec t;
    clock_gettime(CLOCK_PROCESS_CPUTIME_ID, &t);
    return t.tv_sec * 1e9 + t.tv_nsec;
}

static void call(const struct work *w, int who)
{
    if (who == 0)
        w->ours();
    else if (who == 1)
        w->plain();
    else if (who == 2)
        w->pixman();
    else
        w->limit();
}

static double timed(const struct work *w, int who, u32 times)
{
    double from = now();
    for (u32 k = 0; k < times; k++)
        call(w, who);
    return (now() - from) / times;
}

/* Twice by the engine and by plain C: whether what they leave and say is equal. */
static const char *compared(const struct work *w)
{
    memcpy(ours, start, MEMORY);
    memcpy(theirs, start, MEMORY);
    stream_words = 0;
    w->set();
    by_engine = by_plain = (struct plain_drawn){0, 0};
    engine_said = plain_said = 0;
    looking = 1;
    for (int pass = 0; pass < 2; pass++) {
        w->ours();
        w->plain();
    }
    looking = 0;
    int equal = memcmp(ours, theirs, MEMORY) == 0;
    int otherwise = stream_words && (engine_said != plain_said || !same_registers());
    if (by_engine.count != by_plain.count || by_engine.changed != by_plain.changed || otherwise) {
        fprintf(stderr, "bench: %s, %d bpp, %u: the engine wrote %u pixels and changed %u, C wrote %u and changed %u%s\n", w->name, bytes * 8, n,
                by_engine.count, by_engine.changed, by_plain.count, by_plain.changed, otherwise ? "; answers or registers differ" : "");
        return equal ? "OTHER NUMBERS" : "DIFFERENT";
    }
    return equal ? "equal" : "DIFFERENT";
}

static int run(const struct work *w, double least)
{
    const char *found = compared(w);
    double best[4] = {0, 0, 0, 0};
    u32 times[4] = {0, 0, 0, 0};
    for (int who = 0; who < 4; who++) {
        if ((who == 2 && (!w->pixman || !w->pixman())) || (who == 3 && !w->limit))
            continue;
        double once = timed(w, who, 1);
        times[who] = once > least ? 1 : (u32)(least / once) + 1;
    }
    for (int k = 0; k < RUNS; k++) {
        for (int who = 0; who < 4; who++) {
            if (!times[who])
                continue;
            double t = timed(w, who, times[who]);
            if (best[who] == 0 || t < best[who])
                best[who] = t;
        }
    }
    double unit = w->unit > 0 ? w->unit : w->unit < 0 ? n + n : (double)n * n;
    printf("%s;%d;%u;%.4f;%.4f;%.4f;%.4f;%s\n", w->name, bytes * 8, n, best[0] / unit, best[1] / unit, best[2] / unit, best[3] / unit, found);
    fflush(stdout);
    return !strcmp(found, "equal");
}

/* ---- how deep the stack gets: every case once, on a stack whose bytes are known before */

static void *deep(void *unused)
{
    (void)unused;
    n = 64;
    for (u32 k = 0; k < sizeof works / sizeof *works; k++) {
        bytes = 4;
        works[k].set();
        works[k].ours();
    }
    return 0;
}

static size_t depth(void)
{
    size_t size = 1 << 20, at = 0;
    u8 *stack = aligned_alloc(4096, size);
    memset(stack, 0xa5, size);
    pthread_attr_t a;
    pthread_t t;
    pthread_attr_init(&a);
    pthread_attr_setstack(&a, stack, size);
    if (pthread_create(&t, &a, deep, 0))
        return 0;
    pthread_join(t, 0);
    while (at < size && stack[at] == 0xa5)
        at++;
    return size - at;
}

/* WORDS: parts of the names of the cases to run; none: all. */
int main(int argc, char **argv)
{
    ours = aligned_alloc(4096, MEMORY);
    theirs = aligned_alloc(4096, MEMORY);
    start = aligned_alloc(4096, MEMORY);
    for (u32 k = 0; k < MEMORY; k++)
        start[k] = next_random() >> 16; /* the lower bits come again after 65,536 bytes, and the source would be what the target is */
    for (u32 k = 0; k < 256; k++)
        patterns[k] = next_random();
    int fine = 1;
    for (u32 k = 0; k < sizeof works / sizeof *works; k++) {
        int wanted = argc < 2;
        for (int a = 1; a < argc; a++)
            wanted |= strstr(works[k].name, argv[a]) != 0;
        if (!wanted)
            continue;
        for (int size = 0; size < 2; size++) {
            for (bytes = 1; bytes < 5; bytes++) {
                if (!(works[k].sizes >> size & 1) || !(works[k].formats >> bytes & 1))
                    continue;
                n = size ? 1024 : 64;
                fine &= run(&works[k], 10e6);
            }
        }
    }
    printf("stack;%zu\n", depth());
    return fine ? 0 : 1;
}
