/* Rimebarrow: a software engine for the 2D registers of the Voodoo Banshee.

   The library is crates/capi/out/libcapi.a, which `rt lib` makes in the folder crates/capi, for processors from x86-64-v2 on; c/example.c says how to link it.

   The engine keeps nothing of its own. Its state is RIMEBARROW_STATE_SIZE bytes that the caller lends to each call, and its video memory is a run of
   bytes that the caller lends too. Several engines may run at once, each with a state of its own.

   Every pointer must lead to as many bytes as the length that follows it says, that of a run to as many words, and must not be null, not even with a length
   of 0. The places that one call writes must not overlap each other or what it reads. Nothing else is asked of a caller: any length, any bytes in the state,
   any offset and any word are answered.

   The numbers of the answers are those of the table of answers:
     0  taken
     1  the memory is over 16,777,216 bytes, or not of the length the engine was opened with
     2  the offset names no register; for a read, also the launch area
     3  a host blit waits, and the write is neither launch data nor to command
     4  the command is not built
     5  a surface has a format that is not listed, a source that is mono, packed or a host blit's is tiled, or the conversion is not allowed
     6  a host blit whose registers do not fit, or a stretch copy of a source without pixels
     7  a pixel is off its surface
     8  a screen copy between two surfaces whose spans meet, or a stretch copy whose spans meet
   and one more, of these functions alone:
   255  the state has another length than RIMEBARROW_STATE_SIZE, another mark in its first word, or a word at 04 that is neither 0 nor 1. Any other
        bytes are taken as an engine's, also where rimebarrow_open did not make them. A reader likewise: see RIMEBARROW_READER_SIZE
   Command packets have one number more in their sequence of answers:
     9  a packet of another type than 1 and 2, or with a target that is not 2D
   A call that is answered with a number other than 0 has changed no byte of state and memory; a refused write puts 0 into *changed, and a refused view puts
   0 into its two numbers. A run is as many calls as it has words: the words before a refused one have been carried out, and that one has changed no byte.
   So is a piece of packets as many calls as it brings register writes, and a refused one does not stop it. */
#ifndef RIMEBARROW_H
#define RIMEBARROW_H

#include <stddef.h>
#include <stdint.h>

#ifdef __cplusplus
extern "C" {
#endif

/* The bytes of a state. Word k of it, four bytes low byte first, is
     at 00  the mark, 656D6952
     at 04  1 where a host blit waits, else 0
     at 08 to 70, but for 44 and 48: the register of that offset
     at 44  the words of data that the waiting blit has had
     at 48  the last of them
     at 74, 78  the length of the memory, its low word first
     at 7C, 80  of the source, the pixels in a row and the whole rows that memory has room for
     at 84, 88  of the target, the same
   (all hexadecimal). From byte 8C on are the 256 bytes of the colour pattern. The engine keeps the words from 7C to 88 so that they say what the registers
   say. They shorten a test and decide nothing: a state with other numbers there is a state all the same, and every call answers and draws as it would. */
#define RIMEBARROW_STATE_SIZE 396

/* RIMEBARROW_STATE_SIZE, for callers that do not read this file. */
size_t rimebarrow_state_size(void);

/* Makes a fresh engine, all registers 0, for a memory of memory_length bytes. Gives 0, or 255 where state_length is another. */
uint32_t rimebarrow_open(uint8_t *state, size_t state_length, size_t memory_length);

/* Writes a word to the register at an offset, as a program writes it to the card, and carries out the command where there is one.
   Gives the number of the answer in the high 32 bits, and in the low 32 the count of pixels written. Puts into *changed how many of these have a byte that
   is not what it was just before the pixel was stored. All bytes of a pixel count, at 32 bits also the top one; so 0 says that the memory is what it was.
   Where the answer is a refusal or 255, and where nothing is drawn, both counts are 0. */
uint64_t rimebarrow_write(uint8_t *state, size_t state_length, uint8_t *memory, size_t memory_length, uint32_t offset, uint32_t word, uint32_t *changed);

/* Writes a run of words to the launch area. State, memory and counts are those of rimebarrow_write of each word in turn to offset 80 (hexadecimal), up to the
   first word that is refused. words_length counts words, not bytes. Gives 0 where all words were taken, else the number of the refused word's answer. Puts
   into *taken how many words were taken, and into *count and *changed the sums of their counts, which do not wrap with fewer than 2^32 words. An empty run
   takes none and is answered with 0, whatever memory_length is; where the state is none the answer is 255, also to an empty run, and all three are 0.
   A word after a host blit's last one opens the next blit, with the registers as they then stand. With bit 10 of command set, dstXY has by then moved right by
   dstSize's width, and so a whole row of glyphs is one run. */
uint32_t rimebarrow_run(uint8_t *state, size_t state_length, uint8_t *memory, size_t memory_length, const uint32_t *words, size_t words_length,
                        size_t *taken, uint64_t *count, uint64_t *changed);

/* The bytes of a reader of command packets. Word k of it, four bytes low byte first, is
     at 00  the mark, 6C696154
     at 04  the bytes held of a part of a word, the newest on top
     at 08  how many they are, 0 to 3
     at 0C  1 where a packet was turned down, else 0
     at 10  what is left of the open packet: 0 nothing, 1 a number of words, 2 a mask
     at 14  the offset of its next word
     at 18  the step from there to the one after it, 0 or 4; 0 for a mask
     at 1C  how many words are left, or the mask's bits that are, the lowest of them the next word's
   (all hexadecimal). Bytes of another number, with another mark, with a word at 08 over 3, at 0C over 1 or at 10 over 2 are no reader. */
#define RIMEBARROW_READER_SIZE 32

/* Makes an empty reader: nothing held, no packet open, none turned down. The engine is not touched. Gives 0, or 255 where reader_length is another. */
uint32_t rimebarrow_reader(uint8_t *reader, size_t reader_length);

/* Takes a piece of the bytes that a driver put into the command FIFO, cut anywhere, and carries out each register write once its last byte is there: packets of
   type 1 with a 2D target and of type 2. State and memory are those of rimebarrow_write of each register write in turn.
   Puts the answers in their order into the run that is lent for them, three words each: the number, the count of pixels written, and how many of these changed.
   answers_length counts words, not answers. A refused write stands there with its number and does not stop the packet. A packet of another type or target is
   answered with 9 once; the tail is then empty, and later bytes are dropped until rimebarrow_reader makes the reader anew.
   Stops only before the last byte of a word where the run has no room for one more answer; with 3 * ((piece_length + 3) / 4) words of room it takes the whole
   piece. Puts into *used how many bytes were taken and into *answered how many answers were given; the caller lends the rest of the piece
   again. However the bytes are divided among calls, state, memory, reader and the sequence of answers are the same.
   Gives 0; or 255 where the reader or the state is none, and then nothing is changed and both numbers are 0. */
uint32_t rimebarrow_packets(uint8_t *reader, size_t reader_length, uint8_t *state, size_t state_length, uint8_t *memory, size_t memory_length,
                            const uint8_t *piece, size_t piece_length, uint32_t *answers, size_t answers_length, size_t *used, size_t *answered);

/* Reads the register at an offset. Gives the number of the answer (0, 2 or 255) in the high 32 bits, and in the low 32 the word, 0 where refused. */
uint64_t rimebarrow_read(const uint8_t *state, size_t state_length, uint32_t offset);

/* Finds the bytes of width pixels from (x, y) on, in a surface of the memory; base and format are as in dstBaseAddr and dstFormat. Gives 0 and puts the
   place of the first byte into *start and the number of bytes into *count; or gives 1, 5 or 7 and puts 0 into both. A tiled surface is a 5. */
uint32_t rimebarrow_view(const uint8_t *memory, size_t memory_length, uint32_t base, uint32_t format, uint32_t x, uint32_t y, uint32_t width,
                         size_t *start, size_t *count);

/* The number of an answer, and its count or word. */
static inline uint32_t rimebarrow_number(uint64_t answer) { return (uint32_t)(answer >> 32); }
static inline uint32_t rimebarrow_value(uint64_t answer) { return (uint32_t)answer; }

#ifdef __cplusplus
}
#endif

#endif
