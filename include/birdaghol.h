/* Birdaghol for C: Arm SME integer outer products, decoded, encoded, printed, read and replayed, and kept in capture
   files, by proved code.
   Link target/staticlib/libbirdaghol.a, which `tools/build birdaghol_c` writes, into programs for x86-64.

   Flags are the sum of the features that are on: 1 SME, 2 I16I64, 4 MOP4, 8 SME2. vb is the vector length in bytes.
   z has 32 * vb bytes, register by register; p has 2 * vb bytes, 16 predicates of one bit for each vector byte, lowest
   first; za has vb rows of vb bytes. Numbers in them are little-endian.

   Refusals, in the order of the tests, but for 13, which is tested before 8, and 15 and 16, which are tested, in this
   order, before 12: 1 flags above 15; 2 vb not 16, 32, 64, 128 or 256; 3, 4, 5 z, p, za of another length; 6 a list of
   over 65,536 words; 7 a word that is not listed; 8 a word that needs a feature that is off; 9 an outer product with
   streaming mode off; 10 ZA off; 11 a field out of range; 12 a room shorter than the text, fewer fields than
   BIRDAGHOL_FIELDS, or a buffer shorter than a capture file or than what a file holds for it; 13 a line that is no
   listed word's text; 14 in a list, an outer product on a tile with a row that no ZERO before it has cleared; 15 a file
   of another version than 1; 16 a file that is no capture, an empty one too.

   Every function but birdaghol_order_matters answers value * 65536 + missing * 256 + refusal, and BIRDAGHOL_VALUE,
   BIRDAGHOL_MISSING and BIRDAGHOL_REFUSAL take it apart:
   - value: a length from birdaghol_print and birdaghol_capture_write, a word from birdaghol_read and the encode
     functions, how many words were executed from birdaghol_run, and four numbers in one from birdaghol_capture_read.
     0 from birdaghol_decode, birdaghol_describe and birdaghol_execute; 0 beside a refusal, but for birdaghol_run;
   - missing: beside refusal 8, the sum of the flags that the word needs and that are off; otherwise 0. For A1C0001F,
     which needs 2 and 4, birdaghol_decode answers 2 * 256 + 8 with flags 4, and 6 * 256 + 8 with flags 0;
   - refusal: one of the numbers above, or 0 for none.

   What the proofs take as given, and every caller owes: a pointer is not NULL, whatever its length, and good for that
   many elements; a buffer that is written overlaps no other; nothing else writes any of them during the call. */
#ifndef BIRDAGHOL_H
#define BIRDAGHOL_H

#include <stdbool.h>
#include <stddef.h>
#include <stdint.h>

#ifdef __cplusplus
extern "C" {
#endif

#define BIRDAGHOL_VALUE(answer) ((uint64_t)(answer) / 65536)
#define BIRDAGHOL_MISSING(answer) ((uint64_t)(answer) / 256 % 256)
#define BIRDAGHOL_REFUSAL(answer) ((uint64_t)(answer) % 256)

/* Tells whether the word is an instruction with these features. Value: 0. Refusal: 1, 7 or 8. */
uint64_t birdaghol_decode(uint32_t flags, uint32_t word);

/* Puts the text of a word, 47 bytes at most and no 0 after it, at the start of room. Value: its length. Refusal: 1, 7,
   8 or 12, which leaves all of room as it was. */
uint64_t birdaghol_print(uint32_t flags, uint32_t word, uint8_t *room, size_t room_len);

/* The word whose text a line is, byte for byte as birdaghol_print gives it: with another case, a space more, a leading
   zero, a line end, or another list of tiles for a ZERO than the shortest, in order, it is no text. Value: the word.
   Refusal: 1, 13 or 8, tested in this order. */
uint64_t birdaghol_read(uint32_t flags, const uint8_t *line, size_t line_len);

/* The word of a predicated outer product. Value: the word. Refusal: 11, unless element_bytes is 4 or 8; products is 4,
   or 2 where element_bytes is 4 and the signs are alike; the tile is below element_bytes, predicates pn and pm below 8,
   vectors zn and zm below 32. */
uint64_t birdaghol_encode_predicated(uint32_t element_bytes, uint32_t products, bool first_unsigned,
                                     bool second_unsigned, bool subtract, uint32_t tile, uint32_t pn, uint32_t pm,
                                     uint32_t zn, uint32_t zm);

/* The word of a quarter-tile outer product; a pair is given by its first vector. Value: the word. Refusal: 11, unless
   element_bytes, products, signs and tile are as above, first is even and 0 to 14, second even and 16 to 30. */
uint64_t birdaghol_encode_quarter(uint32_t element_bytes, uint32_t products, bool first_unsigned, bool second_unsigned,
                                  bool subtract, uint32_t tile, uint32_t first, bool first_pair, uint32_t second,
                                  bool second_pair);

/* The word of a ZERO of the 64-bit tiles whose bits are set. Value: the word. No mask is refused. */
uint64_t birdaghol_encode_zero(uint8_t mask);

/* The kinds of instructions, one for each encode function. */
#define BIRDAGHOL_PREDICATED 1
#define BIRDAGHOL_QUARTER 2
#define BIRDAGHOL_ZERO 3

/* How many numbers describe a word. */
#define BIRDAGHOL_FIELDS 11

/* Puts the description of a word at the start of fields: its kind, then the ten arguments of the encode function for it
   in their order, true as 1 and false as 0; for a ZERO, the mask and nine zeros. Later numbers stay. Value: 0. Refusal:
   1, 7, 8 or 12, which leaves all of fields as they were. */
uint64_t birdaghol_describe(uint32_t flags, uint32_t word, uint32_t *fields, size_t fields_len);

/* Executes a word on za, whatever za holds. Value: 0. Refusal: 1 to 5 or 7 to 10, which leaves za as it was. */
uint64_t birdaghol_execute(uint32_t flags, bool streaming, bool za_on, size_t vb, const uint8_t *z, size_t z_len,
                           const uint8_t *p, size_t p_len, uint8_t *za, size_t za_len, uint32_t word);

/* Executes words in turn, up to the first that is refused. Value: how many were executed, beside a refusal too. It
   reaches 65,536, which takes 17 bits, and is 0 beside refusals 1 to 6, which leave za as it was. Refusals 7 to 10 and
   14, and what is missing beside 8, are those of the next word. What za held before reaches no tile that an executed
   word names: each has been cleared by words of this list. 32-bit tile t has the rows of 64-bit tiles t and t + 4. */
uint64_t birdaghol_run(uint32_t flags, bool streaming, bool za_on, size_t vb, const uint8_t *z, size_t z_len,
                       const uint8_t *p, size_t p_len, uint8_t *za, size_t za_len, const uint32_t *words,
                       size_t words_len);

/* Tells whether the order of two words matters: both are outer products that birdaghol_decode takes, and their tiles
   share rows and differ in width. Then there are contents of z, p and za, at every vector length, on which the two
   orders end differently; otherwise the order of two accepted outer products never changes za. No refusal: false for
   any other word, of whose order it says nothing, a ZERO's too, and for flags above 15. */
bool birdaghol_order_matters(uint32_t flags, uint32_t a, uint32_t b);

/* A capture file is what a run takes, as bytes: the version, 1, then five parts, each behind its length in bytes, which
   is a number of 32 bits. The first part is flags, modes (1 streaming, 2 ZA, summed) and vb, in one byte, one and two;
   the others are words, z, p and za. Lengths, words and vb are big-endian. */

/* The bytes of the longest file, that of 65,536 words at vb 256; others have 25 + 4 * words + 34 * vb + vb * vb. */
#define BIRDAGHOL_LONGEST_CAPTURE 336409

/* Puts the file of a capture at the start of file; later bytes stay. Value: its length. Refusal: 1 to 6, as
   birdaghol_run, or 12, which leaves all of file as it was. */
uint64_t birdaghol_capture_write(uint32_t flags, bool streaming, bool za_on, size_t vb, const uint32_t *words,
                                 size_t words_len, const uint8_t *z, size_t z_len, const uint8_t *p, size_t p_len,
                                 const uint8_t *za, size_t za_len, uint8_t *file, size_t file_len);

/* What birdaghol_capture_read answers, taken apart: how many words there are, vb, modes and flags. */
#define BIRDAGHOL_CAPTURE_WORDS(answer) (BIRDAGHOL_VALUE(answer) / 65536)
#define BIRDAGHOL_CAPTURE_VB(answer) (BIRDAGHOL_VALUE(answer) / 64 % 1024)
#define BIRDAGHOL_CAPTURE_MODES(answer) (BIRDAGHOL_VALUE(answer) / 16 % 4)
#define BIRDAGHOL_CAPTURE_FLAGS(answer) (BIRDAGHOL_VALUE(answer) % 16)

/* Puts what a file holds at the starts of words, z, p and za; what they hold past it stays. Value: words * 65536 +
   vb * 64 + modes * 16 + flags. Refusal: 15, 16 or 12, tested in this order, which leaves all four as they were. A file
   of version 1 is a capture only if it is, to its last byte, what birdaghol_capture_write puts for one. */
uint64_t birdaghol_capture_read(const uint8_t *file, size_t file_len, uint32_t *words, size_t words_len, uint8_t *z,
                                size_t z_len, uint8_t *p, size_t p_len, uint8_t *za, size_t za_len);

#ifdef __cplusplus
}
#endif

#endif
