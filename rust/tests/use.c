/* Loads a line of edition 2 and document 01's vocabulary V, encodes, decodes and streams, and prints what comes out. */
#include "rwkv_tokenizer.h"
#include <inttypes.h>
#include <stdio.h>
#include <string.h>

static int32_t single[RWKV_SINGLE];
static uint32_t offsets[RWKV_OFFSETS];
static uint8_t blob[64];
static uint64_t roots[RWKV_ROOTS], table[4 * 256], used[4 * 4], used_bases[4 * 4];
static rwkv_node nodes[16];

#define LEN(array) (sizeof(array) / sizeof(array)[0])
#define PART(array) (array), LEN(array)
#define MEMORY PART(single), PART(offsets), PART(blob), PART(roots), PART(table)
#define BYTES(text) (const uint8_t *)(text), strlen(text)

static void load(const char *text, uint32_t edition) {
    uint64_t report[6];
    uint32_t number = rwkv_load(BYTES(text), edition, true, MEMORY, PART(nodes), PART(used), PART(used_bases), report);
    printf("load %" PRIu32 ":", number);
    for (size_t i = 0; i < LEN(report); i++) printf(" %" PRIu64, report[i]);
    printf("\n");
}

/* A test gives another number, which a compiler has to warn of. */
#ifndef CELLS
#define CELLS 4
#endif

static void print_ids(const char *name, uint32_t number, const uint32_t *ids, const uint64_t report[4]) {
    printf("%s %" PRIu32 ":", name, number);
    for (uint64_t i = 0; i < report[0]; i++) printf(" %" PRIu32, ids[i]);
    if (number != 0) printf(" (offset %" PRIu64 ", byte %" PRIu64 ")", report[1], report[2]);
    printf(" looked %" PRIu64 "\n", report[3]);
}

static void encode(const char *text) {
    uint32_t ids[64];
    uint64_t report[CELLS];
    uint32_t number = rwkv_encode(MEMORY, BYTES(text), PART(ids), report);
    print_ids(text, number, ids, report);
}

static void decode(void) {
    const uint32_t ids[] = {4, 1};
    uint8_t out[64];
    uint64_t report[3];
    uint32_t number = rwkv_decode_utf8(MEMORY, PART(ids), PART(out), report);
    printf("decode %" PRIu32 ": %.*s\n", number, (int)report[0], (const char *)out);
}

static void stream(const char *const *pieces, size_t count) {
    rwkv_stream stream;
    uint32_t ids[64];
    uint64_t report[CELLS];
    rwkv_fresh(&stream);
    for (size_t i = 0; i < count; i++) {
        uint32_t number = rwkv_add(MEMORY, &stream, BYTES(pieces[i]), PART(ids), report);
        print_ids(pieces[i], number, ids, report);
    }
    uint32_t number = rwkv_end(MEMORY, &stream, PART(ids), report);
    print_ids("end", number, ids, report);
}

int main(void) {
    const char *const pieces[] = {"ab", "b", "c"}, *const stopped[] = {"abc"}, *const twice[] = {"a", "a"};
    load("0 'a' 1\n", 1);
    load("1 '\xff' 1\n2 '\x80' 1\n", 1);
    load("1 '\\141\\142' 2\n", 2);
    encode("ab");
    load("1 '\\141\\142' 2\n", 1);
    load("1 '\\141\\142' 2\n", 3);
    load("1 'a' 1\n2 'b' 1\n3 'ab' 2\n4 'abcd' 4\n5 'bc' 2\n", 1);
    encode("abcd");
    encode("aab");
    encode("abc");
    decode();
    stream(pieces, LEN(pieces));
    stream(stopped, LEN(stopped));
    load("1 'a' 1\n", 1);
    encode("aa");
    stream(twice, LEN(twice));
    return 0;
}
