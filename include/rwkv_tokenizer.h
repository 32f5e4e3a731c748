/* The calls of librwkv_tokenizer.a, a tokenizer for RWKV models that is proved to meet its contracts.
 *
 * All memory is lent by the caller. A slice goes as a pointer, never null, and a length in cells; the calls touch no cell past
 * it. What a call writes must not overlap anything else that it is given. The result of each but rwkv_fresh is the number of
 * the refusal, 0 if there is none. A report takes what the number carries; whatever a call does not carry is 0 in it.
 *
 * Every call that is given vocabulary memory:
 *    1  a part of the vocabulary memory is too short
 * Loading a text; 34 comes before 1 and carries nothing; 2 carries the offset of the first bad byte, 3 to 18 a line counted
 * from 1, 20 a byte:
 *   34  the edition is neither 1 nor 2
 *    2  the text is not UTF-8; its first ill-formed sequence starts at the offset, and all before it is UTF-8
 *    3  the line is blank
 *    4  no space
 *    5  the spaces do not part id, literal and length
 *    6  id not in digits, or above 4294967295
 *    7  id above 65535
 *    8  id 0
 *    9  id equals the previous one
 *   10  id below the previous one
 *   11  length not in digits, or 2^64 or more
 *   12  literal bad
 *   13  token empty
 *   14  token of another length than the line says
 *   15  token longer than 255 bytes
 *   16  token seen before
 *   17  too few nodes
 *   18  too few blob bytes
 *   19  no lines
 *   20  full mode: a byte has no token of its own
 *   21  too few blocks in the table, or in a run of marks
 * Encoding and streams; 22 carries an offset and a byte, 23 an offset:
 *   22  no token matches
 *   23  too few cells for the ids
 *   24  fewer cells than bytes held and given
 *   25  more than 4294967295 bytes in one stream
 *   26  the stream has ended, or the record is none of a stream
 * Decoding; 27 carries an index and an id, 28 an index, 29 the offset of the first bad byte:
 *   27  no token has this id
 *   28  too few cells for the bytes
 *   29  the bytes are not UTF-8
 *
 * After 1 and 2, 24 to 26, 34 and a repeated 22 nothing has changed but the report. After 3 to 21 the vocabulary memory is emptied:
 * single all -1, the rest 0. With a new 22, 23, 27, 28 and 29 the ids or bytes made so far stand from the output's start, their
 * number in the report, and the other cells are as they were. But rwkv_decode_lossy writes nothing with 27 and 28, and the index
 * of its 28 is the number of ids; it is quickest where the output has three cells for each byte of the tokens, which is room for any
 * text. A stream that 22 has stopped gives the same offset and byte again at each later call, with no ids.
 *
 * Encoding and streams report the bytes looked at, in the fourth cell. For one id that is the longest beginning of the bytes left that
 * begins some token, and one byte more if one follows and a longer token begins so too; but never fewer than the smaller of two and
 * the bytes left, and never more than 255. The cell has the sum over the ids given: the place where 22 finds no token and the id that
 * 23 has no room for are not in it, and with 1, 24 to 26 and a repeated 22 it is 0. Over memory that no load left, it is the bytes
 * read on the way to the ids given.
 * A stream's call figures its ids on the bytes then at hand, held and new, so that its calls need not add up to the figure of the
 * whole: over the vocabulary `1 'a' 1`, the whole aa has 3 (2 and 1); in pieces, a has 1, the second a 1, and the end 0.
 */
#ifndef RWKV_TOKENIZER_H
#define RWKV_TOKENIZER_H

#include <stdbool.h>
#include <stddef.h>
#include <stdint.h>

#ifdef __cplusplus
extern "C" {
#endif

/* The least lengths of the fixed parts of the vocabulary memory. The blob takes the bytes of all tokens; the table takes blocks
 * of 256 words, and so do both runs of marks, 4 words each to a block. */
#define RWKV_SINGLE 256
#define RWKV_OFFSETS 65537
#define RWKV_ROOTS 65536

/* The least length of an array, so that a C compiler can warn of a shorter one. C++ has no such form. */
#ifdef __cplusplus
#define RWKV_AT_LEAST(cells) cells
#else
#define RWKV_AT_LEAST(cells) static cells
#endif

/* A trie node, for the work memory of a load. Nothing is asked of what it holds, and after a load it may hold anything. */
typedef struct {
    uint32_t head, tail, next;
    uint16_t term, count;
    uint8_t label;
} rwkv_node;

/* The vocabulary memory, shared: what every call but rwkv_load and rwkv_fresh is given first. */
#define RWKV_MEMORY                                                                                                        \
    const int32_t *single, size_t single_len, const uint32_t *offsets, size_t offsets_len, const uint8_t *blob,           \
        size_t blob_len, const uint64_t *roots, size_t roots_len, const uint64_t *table, size_t table_len

/* Loads a vocabulary text into the vocabulary memory; nodes and marks are work memory. The edition says which escapes its
 * literals have: in 1, n t r 0 \ ' " x u; in 2 also a b f v, one to three octal digits (0 among them), and U with eight hexadecimal
 * digits. A caller that was built for the call without `edition` must be built anew: a linker does not see the difference.
 * Report: place kind (0 none, 1 line, 2 offset, 3 byte), place, tokens, nodes, blob bytes, table words. */
uint32_t rwkv_load(const uint8_t *text, size_t text_len, uint32_t edition, bool partial, int32_t *single, size_t single_len,
                   uint32_t *offsets, size_t offsets_len, uint8_t *blob, size_t blob_len, uint64_t *roots, size_t roots_len,
                   uint64_t *table, size_t table_len, rwkv_node *nodes, size_t nodes_len, uint64_t *used, size_t used_len,
                   uint64_t *used_bases, size_t used_bases_len, uint64_t report[RWKV_AT_LEAST(6)]);

/* Encodes src. It uses no cell of out past the first 2^56 - 1, and 23 counts the others as missing.
 * Report: count, offset, byte, bytes looked at. In this call, rwkv_add and rwkv_end it has four cells; a caller that was built for a
 * report of three must be built anew: a linker does not see the difference, and the fourth cell is written. */
uint32_t rwkv_encode(RWKV_MEMORY, const uint8_t *src, size_t src_len, uint32_t *out, size_t out_len,
                     uint64_t report[RWKV_AT_LEAST(4)]);

/* Decode ids to bytes; to text, which must be UTF-8; to text with U+FFFD for what is not.
 * Report: bytes written, index (29: the offset), id. */
uint32_t rwkv_decode(RWKV_MEMORY, const uint32_t *ids, size_t ids_len, uint8_t *out, size_t out_len,
                     uint64_t report[RWKV_AT_LEAST(3)]);
uint32_t rwkv_decode_utf8(RWKV_MEMORY, const uint32_t *ids, size_t ids_len, uint8_t *out, size_t out_len,
                          uint64_t report[RWKV_AT_LEAST(3)]);
uint32_t rwkv_decode_lossy(RWKV_MEMORY, const uint32_t *ids, size_t ids_len, uint8_t *out, size_t out_len,
                           uint64_t report[RWKV_AT_LEAST(3)]);

/* A stream between two calls. Phase: 0 open, 1 stopped, 2 ended. rwkv_fresh makes one. */
typedef struct {
    uint32_t total, stop_offset;
    uint8_t held[254], held_len, stop_byte, phase;
} rwkv_stream;

void rwkv_fresh(rwkv_stream *stream);

/* Takes a piece and hands out the ids that it decides. Report: count, offset, byte, bytes looked at. */
uint32_t rwkv_add(RWKV_MEMORY, rwkv_stream *stream, const uint8_t *piece, size_t piece_len, uint32_t *out, size_t out_len,
                  uint64_t report[RWKV_AT_LEAST(4)]);

/* No more bytes come: hands out the remaining ids. Report: count, offset, byte, bytes looked at. */
uint32_t rwkv_end(RWKV_MEMORY, rwkv_stream *stream, uint32_t *out, size_t out_len, uint64_t report[RWKV_AT_LEAST(4)]);

#ifdef __cplusplus
}
#endif

#endif
