/* The work of each case in straightforward C: plain loops, with what does not change in a loop taken out of it. It uses no header of the system,
   so that any clang compiles it. Each function returns the number of pixels that it wrote, and how many of them changed. */
#include "plain.h"

#define INLINE static inline __attribute__((always_inline))

/* One function for each size of pixel, made from one body. */
#define BY_BYTES(call, ...) \
    switch (bytes) { \
    case 1: return call(1, __VA_ARGS__); \
    case 2: return call(2, __VA_ARGS__); \
    case 3: return call(3, __VA_ARGS__); \
    default: return call(4, __VA_ARGS__); \
    }

INLINE u32 get(int bytes, const u8 *p)
{
    if (bytes == 1)
        return *p;
    if (bytes == 2)
        return *(const u16 *)p;
    if (bytes == 3)
        return p[0] | p[1] << 8 | p[2] << 16;
    return *(const u32 *)p;
}

INLINE void put(int bytes, u8 *p, u32 v)
{
    if (bytes == 1) {
        *p = v;
    } else if (bytes == 2) {
        *(u16 *)p = v;
    } else if (bytes == 3) {
        p[0] = v;
        p[1] = v >> 8;
        p[2] = v >> 16;
    } else {
        *(u32 *)p = v;
    }
}

/* Stores a pixel; whether it changed. */
INLINE u32 store(int bytes, u8 *p, u32 v)
{
    u32 old = get(bytes, p);
    put(bytes, p, v);
    return old != (bytes == 4 ? v : v & ((1u << bytes * 8 % 32) - 1));
}

/* The pixels of a row, one by one: pixel i gets a value, which may speak of i, and is counted where it changes. The count of a piece is no wider than a
   pixel, so that as many counts go into a vector as pixels. */
#define STORE_ROW(bytes, d, w, changed, value) \
    for (u32 from = 0, past; from < (w); from = past) { \
        u8 narrow = 0; \
        u16 middle = 0; \
        u32 wide = 0; \
        past = (w) - from < ((bytes) == 1 ? 128 : 32768) ? (w) : from + ((bytes) == 1 ? 128 : 32768); \
        for (u32 i = from; i < past; i++) { \
            u32 new = store(bytes, (d) + (u64)i * (bytes), value); \
            if ((bytes) == 1) \
                narrow += new; \
            else if ((bytes) == 2) \
                middle += new; \
            else \
                wide += new; \
        } \
        changed += narrow + middle + wide; \
    }

INLINE struct plain_drawn drawn(u32 count, u32 changed)
{
    return (struct plain_drawn){count, changed};
}

INLINE u8 *row_of(int bytes, struct plain_surface s, u32 x, u32 y)
{
    return s.at + (u64)y * s.stride + (u64)x * bytes;
}

/* Three bytes by four: all but the last pixel of a row are looked at with the byte that follows. Four pixels are three words. */
INLINE u32 fill_row_3(u8 *d, u32 w, u32 colour)
{
    u32 changed = 0, i = 0, a = colour & 0xffffff;
    const u32 words[3] = {a | a << 24, a >> 8 | a << 16, a >> 16 | a << 8};
    for (i = 0; i + 1 < w; i++)
        changed += (*(const u32 *)(d + (u64)i * 3) & 0xffffff) != a;
    changed += get(3, d + (u64)i * 3) != a;
    for (i = 0; i + 4 <= w; i += 4)
        for (u32 k = 0; k < 3; k++)
            ((u32 *)(d + (u64)i * 3))[k] = words[k];
    for (; i < w; i++)
        put(3, d + (u64)i * 3, colour);
    return changed;
}

/* A row of at least one pixel. */
INLINE u32 fill_row(int bytes, u8 *d, u32 w, u32 colour)
{
    u32 changed = 0;
    if (bytes == 3)
        return fill_row_3(d, w, colour);
    STORE_ROW(bytes, d, w, changed, colour)
    return changed;
}

INLINE struct plain_drawn fill(int bytes, struct plain_surface to, u32 x, u32 y, u32 w, u32 h, u32 colour)
{
    u32 changed = 0;
    for (u32 j = 0; j < h; j++)
        changed += fill_row(bytes, row_of(bytes, to, x, y + j), w, colour);
    return drawn(w * h, changed);
}

struct plain_drawn plain_fill(int bytes, struct plain_surface to, u32 x, u32 y, u32 w, u32 h, u32 colour)
{
    BY_BYTES(fill, to, x, y, w, h, colour)
}

/* Raster operation 5A with the colour pattern: target xor pattern. */
INLINE struct plain_drawn pattern_xor(int bytes, struct plain_surface to, u32 x, u32 y, u32 w, u32 h, const u8 *pattern)
{
    u32 changed = 0;
    for (u32 j = 0; j < h; j++) {
        u8 *d = row_of(bytes, to, x, y + j);
        u32 row[8];
        for (u32 k = 0; k < 8; k++)
            row[k] = get(bytes, pattern + ((y + j) % 8 * 8 + k) * bytes);
        STORE_ROW(bytes, d, w, changed, get(bytes, d + (u64)i * bytes) ^ row[(x + i) % 8])
    }
    return drawn(w * h, changed);
}

struct plain_drawn plain_pattern_xor(int bytes, struct plain_surface to, u32 x, u32 y, u32 w, u32 h, const u8 *pattern)
{
    BY_BYTES(pattern_xor, to, x, y, w, h, pattern)
}

/* Raster operation F0 with the mono pattern, pixels of its clear bits left. */
INLINE struct plain_drawn pattern_mono(int bytes, struct plain_surface to, u32 x, u32 y, u32 w, u32 h, const u8 *pattern, u32 fore)
{
    u32 n = 0, changed = 0;
    for (u32 j = 0; j < h; j++) {
        u8 *d = row_of(bytes, to, x, y + j);
        u32 bits = pattern[(y + j) % 8];
        for (u32 i = 0; i < w; i++) {
            if (bits >> (7 - (x + i) % 8) & 1) {
                changed += store(bytes, d + (u64)i * bytes, fore);
                n++;
            }
        }
    }
    return drawn(n, changed);
}

struct plain_drawn plain_pattern_mono(int bytes, struct plain_surface to, u32 x, u32 y, u32 w, u32 h, const u8 *pattern, u32 fore)
{
    BY_BYTES(pattern_mono, to, x, y, w, h, pattern, fore)
}

/* Three bytes by four, as in a fill. */
INLINE u32 copy_row_3(u8 *d, const u8 *s, u32 w)
{
    u32 changed = 0, i = 0;
    for (i = 0; i + 1 < w; i++)
        changed += ((*(const u32 *)(d + (u64)i * 3) ^ *(const u32 *)(s + (u64)i * 3)) & 0xffffff) != 0;
    changed += get(3, d + (u64)i * 3) != get(3, s + (u64)i * 3);
    __builtin_memmove(d, s, (u64)w * 3);
    return changed;
}

/* A row of at least one pixel, to a place that has no byte of it or as it was before. */
INLINE u32 copy_row(int bytes, u8 *d, const u8 *s, u32 w)
{
    u32 changed = 0;
    if (bytes == 3)
        return copy_row_3(d, s, w);
    STORE_ROW(bytes, d, w, changed, get(bytes, s + (u64)i * bytes))
    return changed;
}

/* Raster operation 66: target xor source. Three bytes by four, as in a fill; what is not 0 changes the target. */
INLINE u32 xor_row(int bytes, u8 *d, const u8 *s, u32 w)
{
    u32 changed = 0, i = 0;
    if (bytes == 3) {
        for (; i + 1 < w; i++)
            changed += (*(const u32 *)(s + (u64)i * 3) & 0xffffff) != 0;
        changed += get(3, s + (u64)i * 3) != 0;
        for (i = 0; i < w * 3; i++)
            d[i] ^= s[i];
        return changed;
    }
    STORE_ROW(bytes, d, w, changed, get(bytes, d + (u64)i * bytes) ^ get(bytes, s + (u64)i * bytes))
    return changed;
}

INLINE struct plain_drawn copy(int bytes, struct plain_surface to, struct plain_surface from, u32 x, u32 y, u32 w, u32 h, int xor)
{
    u32 changed = 0;
    for (u32 j = 0; j < h; j++) {
        u8 *d = row_of(bytes, to, x, y + j);
        const u8 *s = row_of(bytes, from, 0, j);
        changed += xor ? xor_row(bytes, d, s, w) : copy_row(bytes, d, s, w);
    }
    return drawn(w * h, changed);
}

struct plain_drawn plain_copy(int bytes, struct plain_surface to, struct plain_surface from, u32 x, u32 y, u32 w, u32 h)
{
    BY_BYTES(copy, to, from, x, y, w, h, 0)
}

struct plain_drawn plain_copy_xor(int bytes, struct plain_surface to, struct plain_surface from, u32 x, u32 y, u32 w, u32 h)
{
    BY_BYTES(copy, to, from, x, y, w, h, 1)
}

/* Within one surface, each pixel onto its right-hand neighbour, from the left: the first column spreads. */
INLINE struct plain_drawn smear(int bytes, struct plain_surface s, u32 w, u32 h)
{
    u32 changed = 0;
    for (u32 j = 0; j < h; j++) {
        u8 *d = row_of(bytes, s, 1, j);
        for (u32 i = 0; i < w; i++)
            changed += store(bytes, d + (u64)i * bytes, get(bytes, d + (u64)i * bytes - bytes));
    }
    return drawn(w * h, changed);
}

struct plain_drawn plain_smear(int bytes, struct plain_surface s, u32 w, u32 h)
{
    BY_BYTES(smear, s, w, h)
}

/* Within one surface, to other rows further down: from the last row to the first. */
INLINE struct plain_drawn copy_over(int bytes, struct plain_surface s, u32 sx, u32 sy, u32 x, u32 y, u32 w, u32 h)
{
    u32 changed = 0;
    for (u32 j = h; j-- > 0;)
        changed += copy_row(bytes, row_of(bytes, s, x, y + j), row_of(bytes, s, sx, sy + j), w);
    return drawn(w * h, changed);
}

struct plain_drawn plain_copy_over(int bytes, struct plain_surface s, u32 sx, u32 sy, u32 x, u32 y, u32 w, u32 h)
{
    BY_BYTES(copy_over, s, sx, sy, x, y, w, h)
}

INLINE int between(u32 v, u32 low, u32 high, int shift, u32 mask)
{
    u32 a = v >> shift & mask;
    return (low >> shift & mask) <= a && a <= (high >> shift & mask);
}

/* Whether every channel of v lies between those of low and high. */
INLINE int matches(int bytes, u32 v, u32 low, u32 high)
{
    if (bytes == 1)
        return between(v, low, high, 0, 255);
    if (bytes == 2)
        return between(v, low, high, 0, 31) && between(v, low, high, 5, 63) && between(v, low, high, 11, 31);
    return between(v, low, high, 0, 255) && between(v, low, high, 8, 255) && between(v, low, high, 16, 255);
}

/* A pixel gets its source where the target matches the key. */
INLINE struct plain_drawn copy_into_key(int bytes, struct plain_surface to, struct plain_surface from, u32 x, u32 y, u32 w, u32 h, u32 low, u32 high)
{
    u32 changed = 0;
    for (u32 j = 0; j < h; j++) {
        u8 *d = row_of(bytes, to, x, y + j);
        const u8 *s = row_of(bytes, from, 0, j);
        for (u32 i = 0; i < w; i++) {
            if (matches(bytes, get(bytes, d + (u64)i * bytes), low, high))
                changed += store(bytes, d + (u64)i * bytes, get(bytes, s + (u64)i * bytes));
        }
    }
    return drawn(w * h, changed);
}

struct plain_drawn plain_copy_into_key(int bytes, struct plain_surface to, struct plain_surface from, u32 x, u32 y, u32 w, u32 h, u32 low, u32 high)
{
    BY_BYTES(copy_into_key, to, from, x, y, w, h, low, high)
}

/* A pixel whose source matches the key keeps its target. */
INLINE struct plain_drawn copy_key(int bytes, struct plain_surface to, struct plain_surface from, u32 x, u32 y, u32 w, u32 h, u32 low, u32 high)
{
    u32 changed = 0;
    for (u32 j = 0; j < h; j++) {
        u8 *d = row_of(bytes, to, x, y + j);
        const u8 *s = row_of(bytes, from, 0, j);
        STORE_ROW(bytes, d, w, changed,
                  matches(bytes, get(bytes, s + (u64)i * bytes), low, high) ? get(bytes, d + (u64)i * bytes) : get(bytes, s + (u64)i * bytes))
    }
    return drawn(w * h, changed);
}

struct plain_drawn plain_copy_key(int bytes, struct plain_surface to, struct plain_surface from, u32 x, u32 y, u32 w, u32 h, u32 low, u32 high)
{
    BY_BYTES(copy_key, to, from, x, y, w, h, low, high)
}

struct plain_drawn plain_copy_16_32(struct plain_surface to, struct plain_surface from, u32 x, u32 y, u32 w, u32 h)
{
    u32 changed = 0;
    for (u32 j = 0; j < h; j++) {
        u32 *d = (u32 *)row_of(4, to, x, y + j);
        const u16 *s = (const u16 *)row_of(2, from, 0, j);
        for (u32 i = 0; i < w; i++) {
            u32 v = s[i], r = v >> 11, g = v >> 5 & 63, b = v & 31, old = d[i];
            d[i] = (r << 3 | r >> 2) << 16 | (g << 2 | g >> 4) << 8 | (b << 3 | b >> 2);
            changed += d[i] != old;
        }
    }
    return drawn(w * h, changed);
}

INLINE u32 narrowed(u32 v)
{
    return (v >> 8 & 0xf800) | (v >> 5 & 0x07e0) | (v >> 3 & 0x001f);
}

/* Pixel i of w from pixel i * sw / w of its source row, and rows likewise, each by a running remainder. */
INLINE struct plain_drawn stretch(int bytes, int source, struct plain_surface to, struct plain_surface from, u32 w, u32 h, u32 sw, u32 sh)
{
    u32 right = sw / w, rest = sw % w, down = sh / h, left_over = sh % h;
    u32 y = 0, below = 0, changed = 0;
    for (u32 j = 0; j < h; j++) {
        u8 *d = row_of(bytes, to, 0, j);
        const u8 *s = row_of(source, from, 0, y);
        u32 x = 0, past = 0;
        for (u32 i = 0; i < w; i++) {
            u32 v = get(source, s + (u64)x * source);
            changed += store(bytes, d + (u64)i * bytes, source == bytes ? v : narrowed(v));
            x += right;
            past += rest;
            if (past >= w) {
                past -= w;
                x++;
            }
        }
        y += down;
        below += left_over;
        if (below >= h) {
            below -= h;
            y++;
        }
    }
    return drawn(w * h, changed);
}

/* Between surfaces of one format. */
INLINE struct plain_drawn stretch_alike(int bytes, struct plain_surface to, struct plain_surface from, u32 w, u32 h, u32 sw, u32 sh)
{
    return stretch(bytes, bytes, to, from, w, h, sw, sh);
}

struct plain_drawn plain_stretch(int bytes, struct plain_surface to, struct plain_surface from, u32 w, u32 h, u32 sw, u32 sh)
{
    BY_BYTES(stretch_alike, to, from, w, h, sw, sh)
}

struct plain_drawn plain_stretch_32_16(struct plain_surface to, struct plain_surface from, u32 w, u32 h, u32 sw, u32 sh)
{
    return stretch(2, 4, to, from, w, h, sw, sh);
}

INLINE struct plain_drawn copy_mono(int bytes, struct plain_surface to, struct plain_surface from, u32 x, u32 y, u32 w, u32 h, u32 fore, u32 back)
{
    const u32 colours[2] = {back, fore};
    u32 changed = 0;
    for (u32 j = 0; j < h; j++) {
        u8 *d = row_of(bytes, to, x, y + j);
        const u8 *s = from.at + (u64)j * from.stride;
        STORE_ROW(bytes, d, w, changed, colours[s[i / 8] >> (7 - i % 8) & 1])
    }
    return drawn(w * h, changed);
}

struct plain_drawn plain_copy_mono(int bytes, struct plain_surface to, struct plain_surface from, u32 x, u32 y, u32 w, u32 h, u32 fore, u32 back)
{
    BY_BYTES(copy_mono, to, from, x, y, w, h, fore, back)
}

/* One step of the stipple: whether this point is of the fore colour. */
INLINE u32 stipple(struct plain_pen *pen)
{
    u32 on = pen->bits >> pen->bit & 1;
    if (pen->count < pen->repeat) {
        pen->count++;
    } else {
        pen->count = 0;
        pen->bit = pen->bit < pen->last ? pen->bit + 1 : 0;
    }
    return on;
}

/* The points of a line, each looked at against the clip; with a pattern by raster operation 5A. */
INLINE struct plain_drawn line(int bytes, struct plain_surface to, int x0, int y0, int x1, int y1, struct plain_clip clip, struct plain_pen *pen, int stippled, const u8 *pattern)
{
    int dx = x1 > x0 ? x1 - x0 : x0 - x1, dy = y1 > y0 ? y1 - y0 : y0 - y1;
    int sx = x1 > x0 ? 1 : -1, sy = y1 > y0 ? 1 : -1, wide = dx >= dy;
    int n = wide ? dx : dy, m = wide ? dy : dx, e = n;
    u32 done = 0, changed = 0;
    struct plain_pen p = *pen;
    for (int i = 0; i <= n; i++) {
        u32 on = stippled ? stipple(&p) : 1;
        if (x0 >= clip.left && x0 < clip.right && y0 >= clip.top && y0 < clip.bottom) {
            u8 *d = row_of(bytes, to, x0, y0);
            u32 xor = pattern ? get(bytes, d) ^ get(bytes, pattern + ((y0 & 7) * 8 + (x0 & 7)) * bytes) : 0;
            changed += store(bytes, d, pattern ? xor : on ? p.fore : p.back);
            done++;
        }
        e += 2 * m;
        int aside = e >= 2 * n;
        if (aside)
            e -= 2 * n;
        x0 += wide ? sx : aside ? sx : 0;
        y0 += wide ? (aside ? sy : 0) : sy;
    }
    *pen = p;
    return drawn(done, changed);
}

struct plain_drawn plain_line(int bytes, struct plain_surface to, int x0, int y0, int x1, int y1, struct plain_clip clip, struct plain_pen *pen)
{
    if (pen->stippled)
        BY_BYTES(line, to, x0, y0, x1, y1, clip, pen, 1, 0)
    BY_BYTES(line, to, x0, y0, x1, y1, clip, pen, 0, 0)
}

struct plain_drawn plain_line_xor(int bytes, struct plain_surface to, int x0, int y0, int x1, int y1, struct plain_clip clip, struct plain_pen *pen, const u8 *pattern)
{
    BY_BYTES(line, to, x0, y0, x1, y1, clip, pen, 0, pattern)
}

void plain_blit_open(struct plain_blit *b, int bytes, struct plain_surface to, u32 x, u32 y, u32 w, u32 h, u32 fore, u32 back)
{
    struct plain_blit fresh = {to, bytes, x, y, w, h, 0, 0, 0, 0, fore, back};
    *b = fresh;
}

/* After a row's last pixel comes the next row's first. */
INLINE void end_row(struct plain_blit *b)
{
    if (b->x == b->width) {
        b->x = 0;
        b->y++;
    }
}

/* The pixels that a word of colour data finishes; rows follow each other with no gap. */
INLINE struct plain_drawn blit_word(int bytes, struct plain_blit *b, u32 word)
{
    u32 done = 0, changed = 0;
    for (int k = 0; k < 4 && b->y < b->height; k++) {
        b->acc |= (word >> 8 * k & 255) << 8 * b->have;
        b->have++;
        if ((int)b->have == bytes) {
            changed += store(bytes, row_of(bytes, b->to, b->left + b->x, b->top + b->y), b->acc);
            done++;
            b->acc = 0;
            b->have = 0;
            b->x++;
            end_row(b);
        }
    }
    return drawn(done, changed);
}

struct plain_drawn plain_blit_word(struct plain_blit *b, u32 word)
{
    int bytes = b->bytes;
    BY_BYTES(blit_word, b, word)
}

/* The pixels of a word of mono data; each row starts at a byte. */
INLINE struct plain_drawn blit_mono(int bytes, struct plain_blit *b, u32 word)
{
    u32 done = 0, changed = 0;
    for (int k = 0; k < 4 && b->y < b->height; k++) {
        u32 byte = word >> 8 * k & 255;
        u8 *d = row_of(bytes, b->to, b->left + b->x, b->top + b->y);
        for (u32 i = 0; i < 8 && b->x < b->width; i++) {
            changed += store(bytes, d + (u64)i * bytes, byte >> (7 - i) & 1 ? b->fore : b->back);
            b->x++;
            done++;
        }
        end_row(b);
    }
    return drawn(done, changed);
}

struct plain_drawn plain_blit_mono(struct plain_blit *b, u32 word)
{
    int bytes = b->bytes;
    BY_BYTES(blit_mono, b, word)
}

/* The pixels that a run of colour data finishes: whole ones up to the end of the row or of the run at once, others byte by byte, since a run may end within
   a pixel. */
INLINE struct plain_drawn blit_words(int bytes, struct plain_blit *b, const u32 *words, u32 n)
{
    const u8 *s = (const u8 *)words, *past = s + (u64)n * 4;
    struct plain_blit at = *b;
    u32 done = 0, changed = 0;
    while (s < past && at.y < at.height) {
        u8 *d = row_of(bytes, at.to, at.left + at.x, at.top + at.y);
        u64 come = (u64)(past - s) / bytes;
        u32 many = come < at.width - at.x ? come : at.width - at.x;
        if (at.have == 0 && many > 0) {
            changed += copy_row(bytes, d, s, many);
            s += (u64)many * bytes;
            at.x += many;
            done += many;
        } else {
            at.acc |= (u32)*s++ << 8 * at.have++;
            if ((int)at.have == bytes) {
                changed += store(bytes, d, at.acc);
                at.acc = at.have = 0;
                at.x++;
                done++;
            }
        }
        end_row(&at);
    }
    *b = at;
    return drawn(done, changed);
}

struct plain_drawn plain_blit_words(struct plain_blit *b, const u32 *words, u32 n)
{
    int bytes = b->bytes;
    BY_BYTES(blit_words, b, words, n)
}

/* The pixels of a run of mono data, up to eight of each byte. */
INLINE struct plain_drawn blit_mono_words(int bytes, struct plain_blit *b, const u32 *words, u32 n)
{
    const u8 *s = (const u8 *)words, *past = s + (u64)n * 4;
    struct plain_blit at = *b;
    u32 done = 0, changed = 0;
    for (; s < past && at.y < at.height; s++) {
        u8 *d = row_of(bytes, at.to, at.left + at.x, at.top + at.y);
        u32 many = at.width - at.x < 8 ? at.width - at.x : 8, byte = *s;
        for (u32 i = 0; i < many; i++)
            changed += store(bytes, d + (u64)i * bytes, byte >> (7 - i) & 1 ? at.fore : at.back);
        at.x += many;
        done += many;
        end_row(&at);
    }
    *b = at;
    return drawn(done, changed);
}

struct plain_drawn plain_blit_mono_words(struct plain_blit *b, const u32 *words, u32 n)
{
    int bytes = b->bytes;
    BY_BYTES(blit_mono_words, b, words, n)
}

u32 plain_write(struct plain_regs *r, u32 offset, u32 word)
{
    if (offset % 4 != 0 || offset < 0x08 || offset > 0x70)
        return 2;
    if (r->waiting)
        return 3;
    switch (offset) {
    case 0x08: case 0x0c: case 0x4c: case 0x50: word &= 0x0fff0fff; break;
    case 0x10: case 0x34: word &= 0x80ffffff; break;
    case 0x14: word &= 0x00073fff; break;
    case 0x54: word &= 0x00ff3fff; break;
    case 0x40: case 0x58: case 0x5c: case 0x68: case 0x6c: word &= 0x1fff1fff; break;
    case 0x18: case 0x1c: case 0x20: case 0x24: case 0x30: word &= 0x00ffffff; break;
    case 0x38: word &= 15; break;
    default: break;
    }
    r->at[offset / 4] = word;
    return 0;
}

/* ---- command packets: of registers, fills and host blits; each write is answered with its number, the pixels written, and those of them that changed */

enum {
    DST_BASE = 0x10 / 4, DST_FORMAT = 0x14 / 4, SRC_FORMAT = 0x54 / 4, BACK = 0x60 / 4, FORE = 0x64 / 4, DST_SIZE = 0x68 / 4, DST_XY = 0x6c / 4,
    COMMAND = 0x70 / 4
};

/* A word of a host blit, which it opens where none waits. */
INLINE struct plain_drawn card_data(struct plain_card *c, int bytes, struct plain_surface to, u32 word)
{
    const u32 *r = c->registers.at;
    if (!c->registers.waiting)
        plain_blit_open(&c->blit, bytes, to, r[DST_XY] & 0x1fff, r[DST_XY] >> 16, r[DST_SIZE] & 0x1fff, r[DST_SIZE] >> 16, r[FORE], r[BACK]);
    struct plain_drawn d = r[SRC_FORMAT] >> 16 & 15 ? plain_blit_word(&c->blit, word) : plain_blit_mono(&c->blit, word);
    c->registers.waiting = c->blit.y < c->blit.height;
    return d;
}

/* A launch write: a fill, or data of a host blit. */
INLINE struct plain_drawn card_launch(struct plain_card *c, u32 word)
{
    u32 *r = c->registers.at;
    int code = r[DST_FORMAT] >> 16, bytes = code - (code > 1);
    struct plain_surface to = {c->memory + r[DST_BASE], r[DST_FORMAT] & 0x3fff};
    if ((r[COMMAND] & 15) == 3)
        return card_data(c, bytes, to, word);
    r[DST_XY] = word & 0x1fff1fff;
    return plain_fill(bytes, to, word & 0x1fff, word >> 16 & 0x1fff, r[DST_SIZE] & 0x1fff, r[DST_SIZE] >> 16, r[FORE]);
}

INLINE void card_write(struct plain_card *c, u32 offset, u32 word, u32 *answer)
{
    struct plain_drawn d = {0, 0};
    u32 number = 0;
    if (offset == 0x70)
        c->registers.waiting = 0;
    if (offset >= 0x80 && offset < 0x100)
        d = card_launch(c, word);
    else
        number = plain_write(&c->registers, offset, word);
    answer[0] = number;
    answer[1] = d.count;
    answer[2] = d.changed;
}

/* Opens a packet; of another type or target it is answered with 9. How many answers it brings. */
INLINE u32 card_header(struct plain_card *c, u32 header, u32 *answer)
{
    if ((header & 7) == 2) {
        c->mask = header >> 3;
        return 0;
    }
    if ((header & 7) == 1 && header >> 14 & 1) {
        c->left = header >> 16;
        c->offset = (header >> 3 & 255) * 4;
        c->step = header >> 15 & 1 ? 4 : 0;
        return 0;
    }
    c->closed = 1;
    answer[0] = 9;
    answer[1] = answer[2] = 0;
    return 1;
}

/* A whole word of packets; how many answers it brings. */
INLINE u32 card_word(struct plain_card *c, u32 word, u32 *answer)
{
    u32 offset = c->offset;
    if (c->mask) {
        offset = 8 + 4 * __builtin_ctz(c->mask);
        c->mask &= c->mask - 1;
    } else if (c->left) {
        c->offset += c->step;
        c->left--;
    } else {
        return card_header(c, word, answer);
    }
    card_write(c, offset, word, answer);
    return 1;
}

u64 plain_packets(struct plain_card *c, const u8 *piece, u64 length, u32 *answers, u64 room, u64 *answered)
{
    u64 at = 0, many = 0;
    while (at < length && !c->closed) {
        u32 word;
        if (c->held == 0 && length - at >= 4 && many < room) {
            word = get(4, piece + at);
            at += 4;
        } else if (c->held == 3 && many == room) {
            break;
        } else {
            c->part |= (u32)piece[at++] << 8 * c->held++;
            if (c->held < 4)
                continue;
            word = c->part;
            c->part = c->held = 0;
        }
        many += card_word(c, word, answers + 3 * many);
    }
    *answered = many;
    return c->closed ? length : at;
}

/* ---- tiles, from pixel (0, 0) on: of each row the whole pixels up to the end of a tile at once, and a pixel that lies in two tiles by its bytes */

INLINE u8 *piece_of(struct plain_surface s, int tiles, u32 at, u32 y)
{
    return tiles ? s.at + ((u64)(y / 32) * s.stride + at / 128) * 4096 + y % 32 * 128 + at % 128 : s.at + (u64)y * s.stride + at;
}

/* The whole pixels from byte column at on that lie in its tile, at most so many; none where the first lies in two. */
INLINE u32 whole(int bytes, u32 at, u32 most)
{
    u32 many = (128 - at % 128) / bytes;
    return many < most ? many : most;
}

INLINE struct plain_drawn tiles_fill(int bytes, struct plain_surface to, u32 w, u32 h, u32 colour)
{
    u32 changed = 0;
    for (u32 j = 0; j < h; j++) {
        for (u32 i = 0, many; i < w; i += many ? many : 1) {
            many = whole(bytes, i * bytes, w - i);
            if (many) {
                changed += fill_row(bytes, piece_of(to, 1, i * bytes, j), many, colour);
                continue;
            }
            u32 differs = 0;
            for (int k = 0; k < bytes; k++)
                differs |= store(1, piece_of(to, 1, i * bytes + k, j), colour >> 8 * k & 255);
            changed += differs;
        }
    }
    return drawn(w * h, changed);
}

struct plain_drawn plain_tiles_fill(int bytes, struct plain_surface to, u32 w, u32 h, u32 colour)
{
    BY_BYTES(tiles_fill, to, w, h, colour)
}

INLINE struct plain_drawn tiles_xor(int bytes, struct plain_surface to, u32 w, u32 h, const u8 *pattern)
{
    u32 changed = 0;
    for (u32 j = 0; j < h; j++) {
        u32 row[8];
        for (u32 k = 0; k < 8; k++)
            row[k] = get(bytes, pattern + (j % 8 * 8 + k) * bytes);
        for (u32 x = 0, many; x < w; x += many ? many : 1) {
            many = whole(bytes, x * bytes, w - x);
            if (many) {
                u8 *d = piece_of(to, 1, x * bytes, j);
                STORE_ROW(bytes, d, many, changed, get(bytes, d + (u64)i * bytes) ^ row[(x + i) % 8])
                continue;
            }
            for (int k = 0; k < bytes; k++)
                *piece_of(to, 1, x * bytes + k, j) ^= row[x % 8] >> 8 * k;
            changed += row[x % 8] != 0;
        }
    }
    return drawn(w * h, changed);
}

struct plain_drawn plain_tiles_xor(int bytes, struct plain_surface to, u32 w, u32 h, const u8 *pattern)
{
    BY_BYTES(tiles_xor, to, w, h, pattern)
}

INLINE struct plain_drawn tiles_copy(int bytes, struct plain_surface to, int to_tiles, struct plain_surface from, int from_tiles, u32 w, u32 h, int xor)
{
    u32 changed = 0;
    for (u32 j = 0; j < h; j++) {
        for (u32 i = 0, many; i < w; i += many ? many : 1) {
            many = whole(bytes, i * bytes, w - i);
            if (many) {
                u8 *d = piece_of(to, to_tiles, i * bytes, j);
                const u8 *s = piece_of(from, from_tiles, i * bytes, j);
                changed += xor ? xor_row(bytes, d, s, many) : copy_row(bytes, d, s, many);
                continue;
            }
            u32 differs = 0;
            for (int k = 0; k < bytes; k++) {
                u8 *d = piece_of(to, to_tiles, i * bytes + k, j);
                differs |= store(1, d, *piece_of(from, from_tiles, i * bytes + k, j) ^ (xor ? *d : 0));
            }
            changed += differs;
        }
    }
    return drawn(w * h, changed);
}

struct plain_drawn plain_tiles_copy(int bytes, struct plain_surface to, int to_tiles, struct plain_surface from, int from_tiles, u32 w, u32 h)
{
    BY_BYTES(tiles_copy, to, to_tiles, from, from_tiles, w, h, 0)
}

struct plain_drawn plain_tiles_copy_xor(int bytes, struct plain_surface to, struct plain_surface from, u32 w, u32 h)
{
    BY_BYTES(tiles_copy, to, 1, from, 1, w, h, 1)
}
