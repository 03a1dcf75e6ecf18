/* The work of each case of the bench in plain C: one function for each kind of drawing, with the bytes of a pixel as its first number. */
#ifndef PLAIN_H
#define PLAIN_H

typedef unsigned char u8;
typedef unsigned short u16;
typedef unsigned int u32;
typedef unsigned long long u64;

/* A surface: its first byte, the bytes from row to row; on tiles, the tiles from one row of tiles to the next. */
struct plain_surface {
    u8 *at;
    u32 stride;
};

/* What a drawing did: the pixels written, and those of them whose bytes changed. */
struct plain_drawn {
    u32 count, changed;
};

/* A host blit that waits for data: where the next pixel goes, and the bytes of it that have come. */
struct plain_blit {
    struct plain_surface to;
    int bytes;
    u32 left, top, width, height;
    u32 x, y, acc, have;
    u32 fore, back;
};

/* Registers by their offsets, for a write that draws nothing. */
struct plain_regs {
    u32 at[128];
    int waiting;
};

/* A card that takes command packets: its memory, its registers, and the host blit that waits. Of the open packet the bits of the mask that are left, or how
   many words are, the offset of the next and the step from there to the one after it; the bytes held of a part of a word; whether a packet was turned down. */
struct plain_card {
    u8 *memory;
    struct plain_regs registers;
    struct plain_blit blit;
    u32 mask, left, offset, step;
    u32 part, held;
    int closed;
};

struct plain_clip {
    int left, right, top, bottom;
};

struct plain_pen {
    u32 fore, back, bits, repeat, last, count, bit;
    int stippled;
};

struct plain_drawn plain_fill(int bytes, struct plain_surface to, u32 x, u32 y, u32 w, u32 h, u32 colour);
struct plain_drawn plain_pattern_xor(int bytes, struct plain_surface to, u32 x, u32 y, u32 w, u32 h, const u8 *pattern);
struct plain_drawn plain_pattern_mono(int bytes, struct plain_surface to, u32 x, u32 y, u32 w, u32 h, const u8 *pattern, u32 fore);
struct plain_drawn plain_copy(int bytes, struct plain_surface to, struct plain_surface from, u32 x, u32 y, u32 w, u32 h);
struct plain_drawn plain_smear(int bytes, struct plain_surface s, u32 w, u32 h);
struct plain_drawn plain_copy_over(int bytes, struct plain_surface s, u32 sx, u32 sy, u32 x, u32 y, u32 w, u32 h);
struct plain_drawn plain_copy_key(int bytes, struct plain_surface to, struct plain_surface from, u32 x, u32 y, u32 w, u32 h, u32 low, u32 high);
struct plain_drawn plain_copy_xor(int bytes, struct plain_surface to, struct plain_surface from, u32 x, u32 y, u32 w, u32 h);
struct plain_drawn plain_copy_into_key(int bytes, struct plain_surface to, struct plain_surface from, u32 x, u32 y, u32 w, u32 h, u32 low, u32 high);
struct plain_drawn plain_copy_16_32(struct plain_surface to, struct plain_surface from, u32 x, u32 y, u32 w, u32 h);
struct plain_drawn plain_stretch(int bytes, struct plain_surface to, struct plain_surface from, u32 w, u32 h, u32 sw, u32 sh);
struct plain_drawn plain_stretch_32_16(struct plain_surface to, struct plain_surface from, u32 w, u32 h, u32 sw, u32 sh);
struct plain_drawn plain_copy_mono(int bytes, struct plain_surface to, struct plain_surface from, u32 x, u32 y, u32 w, u32 h, u32 fore, u32 back);
struct plain_drawn plain_line(int bytes, struct plain_surface to, int x0, int y0, int x1, int y1, struct plain_clip clip, struct plain_pen *pen);
struct plain_drawn plain_line_xor(int bytes, struct plain_surface to, int x0, int y0, int x1, int y1, struct plain_clip clip, struct plain_pen *pen, const u8 *pattern);
void plain_blit_open(struct plain_blit *b, int bytes, struct plain_surface to, u32 x, u32 y, u32 w, u32 h, u32 fore, u32 back);
struct plain_drawn plain_blit_word(struct plain_blit *b, u32 word);
struct plain_drawn plain_blit_mono(struct plain_blit *b, u32 word);
struct plain_drawn plain_blit_words(struct plain_blit *b, const u32 *words, u32 n);
struct plain_drawn plain_blit_mono_words(struct plain_blit *b, const u32 *words, u32 n);
struct plain_drawn plain_tiles_fill(int bytes, struct plain_surface to, u32 w, u32 h, u32 colour);
struct plain_drawn plain_tiles_xor(int bytes, struct plain_surface to, u32 w, u32 h, const u8 *pattern);
struct plain_drawn plain_tiles_copy_xor(int bytes, struct plain_surface to, struct plain_surface from, u32 w, u32 h);
struct plain_drawn plain_tiles_copy(int bytes, struct plain_surface to, int to_tiles, struct plain_surface from, int from_tiles, u32 w, u32 h);
u32 plain_write(struct plain_regs *r, u32 offset, u32 word);
/* The bytes of a piece of packets that were used, with room for so many answers of three words each. */
u64 plain_packets(struct plain_card *c, const u8 *piece, u64 length, u32 *answers, u64 room, u64 *answered);

#endif
