/*
 * Every function of the header, called with known cases. The first one that is
 * not as expected is named, and the exit status is then 1.
 */
#include <math.h>
#include <stdint.h>
#include <stdio.h>
#include <stdlib.h>
#include <string.h>

#include "nospridda.h"

#if NOSPRIDDA_VERSION != 5
#error "c/header.c is for version 5 of the header"
#endif

/* The header's sizes under shorter names. */
enum {
    SIXTEEN = NOSPRIDDA_KERNEL_BITS,
    SYMBOLS = NOSPRIDDA_FRAME_BITS,
    WORD_BYTES = NOSPRIDDA_FRAME_BYTES,
    ONE_BYTES = NOSPRIDDA_BYTES(1),
    MOST_SYMBOLS = NOSPRIDDA_SYMBOLS(NOSPRIDDA_LAYERS),
    MOST_BYTES = NOSPRIDDA_BYTES(NOSPRIDDA_LAYERS),
    MARKS = NOSPRIDDA_FRAME_MARKS,
    MARK_BYTES = NOSPRIDDA_MARK_BYTES,
    LIST_BYTES = NOSPRIDDA_LIST_BYTES,
    LIST_PATHS = NOSPRIDDA_LIST_PATHS
};

/* Ends the program unless something holds. */
static void expect(int holds, const char *what)
{
    if (!holds) {
        fprintf(stderr, "c/header.c: not as expected: %s\n", what);
        exit(EXIT_FAILURE);
    }
}

/* Ends the program unless an outcome has this number and place. */
static void outcome(struct nospridda_outcome got, uint32_t number, size_t place, const char *what)
{
    if (got.number != number || got.place != place) {
        fprintf(stderr, "c/header.c: %s: number %u and place %zu, expected %u and %zu\n", what,
                (unsigned)got.number, got.place, (unsigned)number, place);
        exit(EXIT_FAILURE);
    }
}

/* The same with the word. */
static void word_outcome(struct nospridda_word_outcome got, uint32_t number, uint16_t word, const char *what)
{
    if (got.number != number || got.place != 0 || got.word != word) {
        fprintf(stderr, "c/header.c: %s: number %u, place %zu and word %04x, expected %u, 0 and %04x\n", what,
                (unsigned)got.number, got.place, (unsigned)got.word, (unsigned)number, (unsigned)word);
        exit(EXIT_FAILURE);
    }
}

/* The same with the penalty. */
static void penalty_outcome(struct nospridda_penalty_outcome got, uint32_t number, size_t place, uint32_t penalty,
                            const char *what)
{
    if (got.number != number || got.place != place || got.penalty != penalty) {
        fprintf(stderr, "c/header.c: %s: number %u, place %zu and penalty %u, expected %u, %zu and %u\n", what,
                (unsigned)got.number, got.place, (unsigned)got.penalty, (unsigned)number, place, (unsigned)penalty);
        exit(EXIT_FAILURE);
    }
}

/* Bit i of sixteen: index 0 is the most significant. */
static int word_bit(uint16_t word, size_t i)
{
    return (word >> (15 - i)) & 1;
}

static void set_bit(uint8_t *bytes, size_t i)
{
    bytes[i / 8] |= (uint8_t)(0x80 >> (i % 8));
}

/* The plan of these layers, the innermost first; a frame of fewer takes the first ones. */
static struct nospridda_plan plan_of(uint8_t layers, uint8_t first, uint8_t second, uint8_t third)
{
    struct nospridda_plan plan;

    plan.layers = layers;
    plan.kernels[0] = first;
    plan.kernels[1] = second;
    plan.kernels[2] = third;
    return plan;
}

/* A plan of two layers; what stands for the third one is no kernel, and not looked at. */
static struct nospridda_plan pair(uint8_t inner, uint8_t outer)
{
    return plan_of(2, inner, outer, 255);
}

static void kernels(void)
{
    word_outcome(nospridda_kernel_encode(1, 0x0040), NOSPRIDDA_ACCEPTED, 0xa6c0, "kernel encode");
    word_outcome(nospridda_kernel_encode(0, 0x0400), NOSPRIDDA_ACCEPTED, 0xcc00, "kernel encode, kernel 0");
    word_outcome(nospridda_kernel_undo(1, 0xa6c0), NOSPRIDDA_ACCEPTED, 0x0040, "kernel undo");
    word_outcome(nospridda_kernel_encode(3, 0x0040), NOSPRIDDA_NO_KERNEL, 0, "kernel encode, kernel 3");
    word_outcome(nospridda_kernel_undo(3, 0xa6c0), NOSPRIDDA_NO_KERNEL, 0, "kernel undo, kernel 3");
}

static void all_values(int32_t *values, int32_t value)
{
    size_t i;

    for (i = 0; i < SIXTEEN; i++) {
        values[i] = value;
    }
}

/* Either engine of kernel follow. */
typedef struct nospridda_outcome follow_job(
    uint8_t kernel,
    const int32_t *values, size_t values_length,
    uint16_t symbols,
    int32_t *scores, size_t scores_length);

static void kernel_follow(follow_job *follow)
{
    static const int32_t first[SIXTEEN] = {1, 2, 2, 2, 2, 4, 4, 4, 4, 6, 6, 8, 8, 8, 8, 16};
    static const int32_t second[SIXTEEN] = {1, 2, 2, 4, 2, 2, 4, 4, 6, 6, 8, 8, 4, 8, 8, 16};
    int32_t values[SIXTEEN];
    int32_t scores[SIXTEEN] = {0};

    all_values(values, 1);
    outcome(follow(1, values, SIXTEEN, 0, scores, SIXTEEN), NOSPRIDDA_ACCEPTED, 0,
            "kernel follow, kernel 1");
    expect(memcmp(scores, first, sizeof scores) == 0, "the partial distances of kernel 1");
    outcome(follow(2, values, SIXTEEN, 0, scores, SIXTEEN), NOSPRIDDA_ACCEPTED, 0,
            "kernel follow, kernel 2");
    expect(memcmp(scores, second, sizeof scores) == 0, "the partial distances of kernel 2");

    /* The word of symbol 0 has a single 1, and so has that of symbols 0 and 1. */
    outcome(follow(2, values, SIXTEEN, 0x8000, scores, SIXTEEN), NOSPRIDDA_ACCEPTED, 0,
            "kernel follow, symbol 0 set");
    expect(scores[0] == 1 && scores[1] == 0, "scores after symbol 0");
}

/* The ends of the range of a kernel's values. */
static void kernel_limits(follow_job *follow)
{
    int32_t values[SIXTEEN];
    int32_t scores[SIXTEEN] = {0};

    all_values(values, 2048);
    outcome(follow(0, values, SIXTEEN, 0, scores, SIXTEEN), NOSPRIDDA_ACCEPTED, 0,
            "kernel follow, all values 2048");
    expect(scores[0] == 2048 && scores[15] == 32768, "a score that needs more than sixteen bits");

    all_values(values, 32767);
    values[0] = -32767;
    outcome(follow(2, values, SIXTEEN, 0, scores, SIXTEEN), NOSPRIDDA_ACCEPTED, 0,
            "kernel follow, the ends of the range");
    expect(scores[15] == 14 * 32767, "the last score, one value against fifteen");

    values[9] = 32768;
    outcome(follow(2, values, SIXTEEN, 0, scores, SIXTEEN), NOSPRIDDA_VALUE_OUT_OF_RANGE, 9,
            "kernel follow, 32768");
    values[5] = -32768;
    outcome(follow(2, values, SIXTEEN, 0, scores, SIXTEEN), NOSPRIDDA_VALUE_OUT_OF_RANGE, 5,
            "kernel follow, -32768");
    values[5] = INT32_MIN;
    outcome(follow(2, values, SIXTEEN, 0, scores, SIXTEEN), NOSPRIDDA_VALUE_OUT_OF_RANGE, 5,
            "kernel follow, the least number");
    expect(scores[15] == 14 * 32767, "scores kept by a refusal");
}

static void masks(uint8_t *mask)
{
    static const size_t phases[8] = {191, 223, 239, 250, 251, 253, 254, 255};
    uint8_t marked[WORD_BYTES] = {0};
    size_t i;

    for (i = 0; i < 8; i++) {
        set_bit(marked, phases[i]);
    }
    outcome(nospridda_information_mask(1, mask, WORD_BYTES), NOSPRIDDA_ACCEPTED, 0, "information mask");
    expect(memcmp(mask, marked, sizeof marked) == 0, "the information mask of one byte");
    outcome(nospridda_information_mask(33, mask, WORD_BYTES), NOSPRIDDA_WRONG_SIZE, 0, "information mask, 33 bytes");
    expect(nospridda_part_length(pair(2, 2), mask, WORD_BYTES, WORD_BYTES) == 1, "part length");
    expect(nospridda_part_length(pair(2, 2), mask, WORD_BYTES, 31) == 0, "part length of a buffer of 31 bytes");
    expect(nospridda_part_length(pair(2, 3), mask, WORD_BYTES, WORD_BYTES) == 0, "part length, kernel 3");
    expect(nospridda_part_length(plan_of(3, 2, 2, 2), mask, WORD_BYTES, WORD_BYTES) == 0, "part length, three layers");
    expect(nospridda_part_length(plan_of(0, 2, 2, 2), mask, WORD_BYTES, WORD_BYTES) == 0, "part length, no layer");
}

/* Inner kernel 1, outer kernel 2, and a payload whose only 1 is the symbol of
 * phase 250 = 16 * 15 + 10: row 10 of kernel 1 is 6ca0, row 15 of kernel 2 is
 * all ones. */
static const uint8_t sent = 0x10;

/* Bit i of its word. */
static int sent_bit(size_t i)
{
    return word_bit(0x6ca0, i / 16);
}

static void encode_and_undo(const uint8_t *mask)
{
    uint8_t expected[WORD_BYTES] = {0};
    uint8_t word[WORD_BYTES] = {0};
    uint8_t payload = 0;
    size_t i;

    for (i = 0; i < SYMBOLS; i++) {
        if (sent_bit(i)) {
            set_bit(expected, i);
        }
    }
    outcome(nospridda_frame_encode(pair(1, 2), mask, WORD_BYTES, &sent, 1, word, sizeof word), NOSPRIDDA_ACCEPTED, 0,
            "frame encode");
    expect(memcmp(word, expected, sizeof word) == 0, "the word of a frame");
    outcome(nospridda_frame_encode(pair(1, 2), mask, WORD_BYTES, &sent, 0, word, sizeof word), NOSPRIDDA_WRONG_PAYLOAD, 0,
            "frame encode, no payload");

    outcome(nospridda_frame_undo(pair(1, 2), mask, WORD_BYTES, word, sizeof word, &payload, 1), NOSPRIDDA_ACCEPTED, 0,
            "frame undo");
    expect(payload == sent, "the payload of a word");
    /* Symbol 1, which is not marked: bits 0 and 16. */
    word[0] ^= 0x80;
    word[2] ^= 0x80;
    outcome(nospridda_frame_undo(pair(1, 2), mask, WORD_BYTES, word, sizeof word, &payload, 1), NOSPRIDDA_FROZEN_ONE, 1,
            "frame undo, symbol 1 set");
}

static void decode(const uint8_t *mask)
{
    int8_t values[SYMBOLS];
    int32_t scores[SYMBOLS] = {0};
    uint32_t penalties[SYMBOLS] = {0};
    uint8_t payload = 0;
    size_t i;

    for (i = 0; i < SYMBOLS; i++) {
        values[i] = sent_bit(i) ? -127 : 127;
    }
    outcome(nospridda_frame_decode(pair(1, 2), values, SYMBOLS, mask, WORD_BYTES, scores, SYMBOLS, penalties, SYMBOLS,
                                   &payload, 1),
            NOSPRIDDA_ACCEPTED, 0, "frame decode");
    expect(payload == sent, "the decoded payload");
    expect(scores[250] < 0 && scores[255] == 32512, "the scores of the decoder");
    for (i = 0; i < SYMBOLS; i++) {
        expect(penalties[i] == 0, "the penalties of the decoder");
    }
    values[200] = -128;
    outcome(nospridda_frame_decode(pair(1, 2), values, SYMBOLS, mask, WORD_BYTES, scores, SYMBOLS, penalties, SYMBOLS,
                                   &payload, 1),
            NOSPRIDDA_VALUE_OUT_OF_RANGE, 200, "frame decode, a value out of range");
}

static void frame_follow(void)
{
    int8_t values[SYMBOLS];
    uint8_t symbols[WORD_BYTES] = {0};
    int32_t scores[SYMBOLS] = {0};
    uint32_t penalties[SYMBOLS];
    size_t i;

    for (i = 0; i < SYMBOLS; i++) {
        values[i] = 127;
        penalties[i] = 1;
    }
    outcome(nospridda_frame_follow(pair(2, 2), values, SYMBOLS, symbols, sizeof symbols, scores, SYMBOLS, penalties, SYMBOLS),
            NOSPRIDDA_ACCEPTED, 0, "frame follow");
    expect(scores[0] == 127 && scores[255] == 32512, "the scores of frame follow");
    for (i = 0; i < SYMBOLS; i++) {
        expect(penalties[i] == 0, "the penalties of frame follow");
    }

    /* Partial distance 3 is 2 for kernel 1 and 4 for kernel 2. The word of symbol 255 is all ones. */
    symbols[31] = 1;
    outcome(nospridda_frame_follow(pair(1, 2), values, SYMBOLS, symbols, sizeof symbols, scores, SYMBOLS, penalties, SYMBOLS),
            NOSPRIDDA_ACCEPTED, 0, "frame follow, kernels 1 and 2");
    expect(scores[3] == 2 * 127 && scores[16 * 3] == 4 * 127, "the scores of kernels 1 and 2");
    expect(penalties[254] == 0 && penalties[255] == 32512, "the penalties of symbol 255");

    values[200] = -128;
    outcome(nospridda_frame_follow(pair(2, 2), values, SYMBOLS, symbols, sizeof symbols, scores, SYMBOLS, penalties, SYMBOLS),
            NOSPRIDDA_VALUE_OUT_OF_RANGE, 200, "frame follow, a value out of range");
}

/* A payload of one byte to the word that is expected, and back. The word is left for the caller. */
static void there_and_back(struct nospridda_plan plan, const uint8_t *mask, size_t bytes, uint8_t symbol, uint8_t *word,
                           const uint8_t *expected, const char *what)
{
    uint8_t payload = 0;

    expect(nospridda_part_length(plan, mask, bytes, bytes) == 1, what);
    outcome(nospridda_frame_encode(plan, mask, bytes, &symbol, 1, word, bytes), NOSPRIDDA_ACCEPTED, 0, what);
    expect(memcmp(word, expected, bytes) == 0, what);
    outcome(nospridda_frame_undo(plan, mask, bytes, word, bytes, &payload, 1), NOSPRIDDA_ACCEPTED, 0, what);
    expect(payload == symbol, what);
}

/* One layer is the kernel by itself: symbol 10 of kernel 1, of sixteen, has the word 6ca0. What stands for the other layers is
 * no kernel. */
static void one_layer(void)
{
    static const uint8_t mask[ONE_BYTES] = {0x00, 0xff};
    static const uint8_t expected[ONE_BYTES] = {0x6c, 0xa0};
    static const int32_t distances[SIXTEEN] = {1, 2, 2, 2, 2, 4, 4, 4, 4, 6, 6, 8, 8, 8, 8, 16};
    struct nospridda_plan plan = plan_of(1, 1, 255, 3);
    const uint8_t symbol = 0x20;
    uint8_t symbols[ONE_BYTES] = {0};
    uint8_t word[ONE_BYTES] = {0};
    uint8_t payload = 0;
    int8_t values[SIXTEEN];
    int32_t scores[SIXTEEN] = {0};
    uint32_t penalties[SIXTEEN] = {0};
    size_t i;

    there_and_back(plan, mask, sizeof mask, symbol, word, expected, "a word of one layer");

    for (i = 0; i < SIXTEEN; i++) {
        values[i] = word_bit(0x6ca0, i) ? -127 : 127;
    }
    outcome(nospridda_frame_decode(plan, values, SIXTEEN, mask, sizeof mask, scores, SIXTEEN, penalties, SIXTEEN,
                                   &payload, 1),
            NOSPRIDDA_ACCEPTED, 0, "frame decode, one layer");
    expect(payload == symbol && penalties[15] == 0 && scores[15] == 2032, "one layer decoded");

    for (i = 0; i < SIXTEEN; i++) {
        values[i] = 1;
    }
    outcome(nospridda_frame_follow(plan, values, SIXTEEN, symbols, sizeof symbols, scores, SIXTEEN, penalties, SIXTEEN),
            NOSPRIDDA_ACCEPTED, 0, "frame follow, one layer");
    expect(memcmp(scores, distances, sizeof scores) == 0, "the partial distances by one layer");
}

/* Three layers, kernels 0, 1 and 2 from the innermost on, and a payload whose only 1 is the symbol of phase
 * 2213 = 256 * 8 + 16 * 10 + 5: row 5 of kernel 0 is cc00, row 10 of kernel 1 is 6ca0, row 8 of kernel 2 is a6c0. The digits of
 * the place run the other way. The mask marks phases 2208 to 2215. */
enum { FIRST_MARK = 2208, PHASE = 2213 };

static int far_bit(size_t i)
{
    return word_bit(0xcc00, i / 256) & word_bit(0x6ca0, i / 16 % 16) & word_bit(0xa6c0, i % 16);
}

static void three_layers(void)
{
    static uint8_t mask[MOST_BYTES];
    static uint8_t expected[MOST_BYTES];
    static uint8_t word[MOST_BYTES];
    static int8_t values[MOST_SYMBOLS];
    static int32_t scores[MOST_SYMBOLS];
    static uint32_t penalties[MOST_SYMBOLS];
    struct nospridda_plan plan = plan_of(3, 0, 1, 2);
    const uint8_t symbol = 0x80 >> (PHASE - FIRST_MARK);
    uint8_t payload = 0;
    size_t i;

    mask[FIRST_MARK / 8] = 0xff;
    for (i = 0; i < MOST_SYMBOLS; i++) {
        values[i] = far_bit(i) ? -127 : 127;
        if (far_bit(i)) {
            set_bit(expected, i);
        }
    }
    there_and_back(plan, mask, sizeof mask, symbol, word, expected, "a word of three layers");
    outcome(nospridda_frame_decode(plan, values, MOST_SYMBOLS, mask, sizeof mask, scores, MOST_SYMBOLS, penalties,
                                   MOST_SYMBOLS, &payload, 1),
            NOSPRIDDA_ACCEPTED, 0, "frame decode, three layers");
    expect(payload == symbol && scores[PHASE] < 0 && scores[4095] == 520192 && penalties[4095] == 0,
           "three layers decoded");

    /* Symbol 0, which is not marked: bit 0. */
    word[0] ^= 0x80;
    outcome(nospridda_frame_undo(plan, mask, sizeof mask, word, sizeof word, &payload, 1), NOSPRIDDA_FROZEN_ONE, 0,
            "frame undo, three layers, symbol 0 set");
}

/* Partial distance 8 is 2 for kernel 0, 4 for kernel 1 and 6 for kernel 2. The word of symbol 4095 is all ones. */
static void three_followed(void)
{
    static uint8_t symbols[MOST_BYTES];
    static int8_t values[MOST_SYMBOLS];
    static int32_t scores[MOST_SYMBOLS];
    static uint32_t penalties[MOST_SYMBOLS];
    struct nospridda_plan plan = plan_of(3, 1, 2, 0);
    size_t i;

    for (i = 0; i < MOST_SYMBOLS; i++) {
        values[i] = 127;
    }
    symbols[MOST_BYTES - 1] = 1;
    outcome(nospridda_frame_follow(plan, values, MOST_SYMBOLS, symbols, sizeof symbols, scores, MOST_SYMBOLS, penalties,
                                   MOST_SYMBOLS),
            NOSPRIDDA_ACCEPTED, 0, "frame follow, three layers");
    expect(scores[8] == 4 * 127 && scores[16 * 8] == 6 * 127 && scores[256 * 8] == 2 * 127, "the scores of three layers");
    expect(scores[0] == 127 && scores[4095] == 520192, "the first and the last score of three layers");
    expect(penalties[4094] == 0 && penalties[4095] == 520192, "the penalties of symbol 4095");

    values[4000] = -128;
    outcome(nospridda_frame_follow(plan, values, MOST_SYMBOLS, symbols, sizeof symbols, scores, MOST_SYMBOLS, penalties,
                                   MOST_SYMBOLS),
            NOSPRIDDA_VALUE_OUT_OF_RANGE, 4000, "frame follow, three layers, a value out of range");
    outcome(nospridda_frame_follow(plan, values, SYMBOLS, symbols, sizeof symbols, scores, MOST_SYMBOLS, penalties,
                                   MOST_SYMBOLS),
            NOSPRIDDA_WRONG_LENGTH, 0, "frame follow, three layers, 256 values");
}

/* A plan that the jobs of frames refuse by this number (of list decode see below); the payload part is then empty. */
static void plan_refused(struct nospridda_plan plan, const uint8_t *mask, uint32_t number, const char *what)
{
    const uint8_t word[WORD_BYTES] = {0};
    uint8_t bytes[WORD_BYTES] = {0};
    int8_t values[SYMBOLS] = {-128};
    int32_t scores[SYMBOLS] = {0};
    uint32_t penalties[SYMBOLS] = {0};

    outcome(nospridda_frame_encode(plan, mask, WORD_BYTES, &sent, 1, bytes, sizeof bytes), number, 0, what);
    outcome(nospridda_frame_undo(plan, mask, WORD_BYTES, word, WORD_BYTES, bytes, sizeof bytes), number, 0, what);
    outcome(nospridda_frame_follow(plan, values, SYMBOLS, mask, WORD_BYTES, scores, SYMBOLS, penalties, SYMBOLS), number,
            0, what);
    outcome(nospridda_frame_decode(plan, values, SYMBOLS, mask, WORD_BYTES, scores, SYMBOLS, penalties, SYMBOLS,
                                   bytes, sizeof bytes),
            number, 0, what);
    expect(nospridda_part_length(plan, mask, WORD_BYTES, WORD_BYTES) == 0, what);
}

static void plans(const uint8_t *mask)
{
    plan_refused(plan_of(0, 2, 2, 2), mask, NOSPRIDDA_BAD_LAYERS, "no layer");
    plan_refused(plan_of(4, 2, 2, 2), mask, NOSPRIDDA_BAD_LAYERS, "four layers");
    plan_refused(plan_of(255, 2, 2, 2), mask, NOSPRIDDA_BAD_LAYERS, "255 layers");
    plan_refused(plan_of(4, 3, 3, 3), mask, NOSPRIDDA_BAD_LAYERS, "four layers, and no kernel");
    plan_refused(plan_of(1, 3, 2, 2), mask, NOSPRIDDA_NO_KERNEL, "one layer, kernel 3");
    plan_refused(plan_of(2, 2, 3, 2), mask, NOSPRIDDA_NO_KERNEL, "two layers, kernel 3");
    plan_refused(plan_of(3, 3, 2, 2), mask, NOSPRIDDA_NO_KERNEL, "three layers, kernel 3 in the first");
    plan_refused(plan_of(3, 2, 3, 2), mask, NOSPRIDDA_NO_KERNEL, "three layers, kernel 3 in the second");
    plan_refused(plan_of(3, 2, 2, 3), mask, NOSPRIDDA_NO_KERNEL, "three layers, kernel 3 in the third");
}

/* A payload for list decode: "123456789" and its checksum, 29b1. */
enum { LISTED = 11 };

static const uint8_t listed[LISTED] = {0x31, 0x32, 0x33, 0x34, 0x35, 0x36, 0x37, 0x38, 0x39, 0x29, 0xb1};

/* A request of it, with buffers that are longer than needed by one byte. */
struct list_request {
    struct nospridda_plan plan;
    size_t list;
    int8_t values[SYMBOLS];
    size_t values_length;
    uint8_t mask[WORD_BYTES];
    size_t mask_length;
    uint8_t scratch[LIST_BYTES + 1];
    size_t scratch_length;
    uint8_t payload[LISTED + 1];
    size_t payload_length;
};

/* Such a request: the values of a payload's word, each of size 100, for inner kernel 1 and outer kernel 2. */
static void sealed(struct list_request *r, const uint8_t *payload)
{
    uint8_t word[WORD_BYTES] = {0};
    size_t i;

    r->plan = pair(1, 2);
    r->list = LIST_PATHS;
    r->values_length = SYMBOLS;
    r->mask_length = WORD_BYTES;
    r->scratch_length = LIST_BYTES + 1;
    r->payload_length = LISTED + 1;
    memset(r->scratch, 0xa5, sizeof r->scratch);
    memset(r->payload, 0x5a, sizeof r->payload);
    outcome(nospridda_information_mask(LISTED, r->mask, WORD_BYTES), NOSPRIDDA_ACCEPTED, 0, "the mask of a list");
    outcome(nospridda_frame_encode(pair(1, 2), r->mask, WORD_BYTES, payload, LISTED, word, sizeof word), NOSPRIDDA_ACCEPTED,
            0, "the word of a list");
    for (i = 0; i < SYMBOLS; i++) {
        r->values[i] = (word[i / 8] >> (7 - i % 8)) & 1 ? -100 : 100;
    }
}

static struct nospridda_penalty_outcome list_call(struct list_request *r)
{
    return nospridda_list_decode(r->plan, r->list, r->values, r->values_length, r->mask, r->mask_length,
                                 r->scratch, r->scratch_length, r->payload, r->payload_length);
}

/* Whether the whole of a buffer but its last byte holds one byte, and the last one another. */
static int holds(const uint8_t *bytes, size_t length, uint8_t first, uint8_t last)
{
    size_t i;

    for (i = 0; i + 1 < length; i++) {
        if (bytes[i] != first) {
            return 0;
        }
    }
    return bytes[length - 1] == last;
}

/* A request that is refused by this number leaves both buffers. */
static void list_refused(struct list_request *r, uint32_t number, size_t place, const char *what)
{
    penalty_outcome(list_call(r), number, place, 0, what);
    expect(holds(r->scratch, sizeof r->scratch, 0xa5, 0xa5) && holds(r->payload, sizeof r->payload, 0x5a, 0x5a), what);
}

static void lists(void)
{
    struct list_request r;
    uint8_t unlisted[LISTED];
    size_t list;

    /* With no noise; then three values of size 100 become 1, 2 and 4 on the wrong side. */
    for (list = 1; list <= LIST_PATHS; list++) {
        sealed(&r, listed);
        r.list = list;
        penalty_outcome(list_call(&r), NOSPRIDDA_ACCEPTED, 0, 0, "list decode");
        expect(memcmp(r.payload, listed, LISTED) == 0 && r.payload[LISTED] == 0x5a, "the payload of a list");
        expect(holds(r.scratch, sizeof r.scratch, 0, 0xa5), "the scratch of a list");
        r.values[0] = (int8_t)(r.values[0] / -100);
        r.values[77] = (int8_t)(r.values[77] / -50);
        r.values[255] = (int8_t)(r.values[255] / -25);
        penalty_outcome(list_call(&r), NOSPRIDDA_ACCEPTED, 0, 7, "list decode, three wrong signs");
        expect(memcmp(r.payload, listed, LISTED) == 0, "the payload of a list, three wrong signs");
    }

    /* Buffers that are just long enough. */
    sealed(&r, listed);
    r.scratch_length = LIST_BYTES;
    r.payload_length = LISTED;
    penalty_outcome(list_call(&r), NOSPRIDDA_ACCEPTED, 0, 0, "list decode, short buffers");

    /* A checksum that is one bit off, found with the only path: the scratch is zeros, the payload stays. */
    memcpy(unlisted, listed, sizeof unlisted);
    unlisted[LISTED - 1] ^= 1;
    sealed(&r, unlisted);
    r.list = 1;
    penalty_outcome(list_call(&r), NOSPRIDDA_NO_AGREEING_PATH, 0, 0, "list decode, another checksum");
    expect(holds(r.scratch, sizeof r.scratch, 0, 0xa5), "the scratch after 13");
    expect(holds(r.payload, sizeof r.payload, 0x5a, 0x5a), "the payload after 13");
}

/* Each refusal, the later ones with what is spoiled already. */
static void list_refusals(void)
{
    struct list_request r;

    sealed(&r, listed);
    r.values[3] = -128;
    r.values[200] = -128;
    list_refused(&r, NOSPRIDDA_VALUE_OUT_OF_RANGE, 3, "list decode, two values out of range");
    r.scratch_length = LIST_BYTES - 1;
    list_refused(&r, NOSPRIDDA_SHORT_OUTPUT, 0, "list decode, scratch of 8191 bytes");
    r.scratch_length = LIST_BYTES;
    r.payload_length = LISTED - 1;
    list_refused(&r, NOSPRIDDA_SHORT_OUTPUT, 0, "list decode, room for 10 bytes");
    outcome(nospridda_information_mask(2, r.mask, WORD_BYTES), NOSPRIDDA_ACCEPTED, 0, "the mask of two bytes");
    list_refused(&r, NOSPRIDDA_FEW_MARKS, 0, "list decode, 16 phases");
    memset(r.mask, 0, WORD_BYTES);
    list_refused(&r, NOSPRIDDA_BAD_MASK, 0, "list decode, no phase");
    r.mask_length = WORD_BYTES - 1;
    list_refused(&r, NOSPRIDDA_WRONG_LENGTH, 0, "list decode, a mask of 31 bytes");
    r.mask_length = WORD_BYTES;
    r.values_length = SYMBOLS - 1;
    list_refused(&r, NOSPRIDDA_WRONG_LENGTH, 0, "list decode, 255 values");
    r.list = 0;
    list_refused(&r, NOSPRIDDA_WRONG_LIST_SIZE, 0, "list decode, no path");
    r.list = LIST_PATHS + 1;
    list_refused(&r, NOSPRIDDA_WRONG_LIST_SIZE, 0, "list decode, nine paths");
    r.plan.kernels[0] = 3;
    list_refused(&r, NOSPRIDDA_NO_KERNEL, 0, "list decode, kernel 3");
    r.plan.layers = 1;
    list_refused(&r, NOSPRIDDA_BAD_LAYERS, 0, "list decode, one layer");
    r.plan = plan_of(3, 2, 2, 2);
    list_refused(&r, NOSPRIDDA_BAD_LAYERS, 0, "list decode, three layers");
}

static void marks(void)
{
    float amplitudes[SYMBOLS] = {1.0f, 0.015625f, 0.046875f, -8.0f};
    uint8_t blanked[MARK_BYTES] = {0};
    int8_t values[SYMBOLS];
    size_t i;

    expect(2 * MARKS == SYMBOLS && 8 * MARK_BYTES == MARKS && 8 * WORD_BYTES == SYMBOLS, "the sizes of the header");
    memset(values, 1, sizeof values);
    outcome(nospridda_values_from_marks(32.0f, amplitudes, SYMBOLS, blanked, sizeof blanked, values, SYMBOLS),
            NOSPRIDDA_ACCEPTED, 0, "values from marks");
    expect(values[0] == 32 && values[1] == 1 && values[2] == 2 && values[3] == -127, "the values of four amplitudes");
    for (i = 4; i < SYMBOLS; i++) {
        expect(values[i] == 0, "the values of amplitudes 0");
    }
    outcome(nospridda_values_from_marks(3.0f, amplitudes, SYMBOLS, blanked, sizeof blanked, values, SYMBOLS),
            NOSPRIDDA_ACCEPTED, 0, "values from marks, scale 3");
    expect(values[0] == 3 && values[1] == 0 && values[2] == 0 && values[3] == -24, "the values with scale 3");

    amplitudes[9] = NAN;
    outcome(nospridda_values_from_marks(32.0f, amplitudes, SYMBOLS, blanked, sizeof blanked, values, SYMBOLS),
            NOSPRIDDA_NOT_FINITE, 9, "values from marks, NaN heard");
    outcome(nospridda_values_from_marks(0.0f, amplitudes, SYMBOLS, blanked, sizeof blanked, values, SYMBOLS),
            NOSPRIDDA_BAD_SCALE, 0, "values from marks, scale 0 and NaN heard");
    outcome(nospridda_values_from_marks(NAN, amplitudes, SYMBOLS, blanked, sizeof blanked, values, SYMBOLS - 1),
            NOSPRIDDA_SHORT_OUTPUT, 0, "values from marks, scale NaN and room for 255");
    expect(values[0] == 3 && values[3] == -24, "values after a refusal");
    set_bit(blanked, 4);
    outcome(nospridda_values_from_marks(32.0f, amplitudes, SYMBOLS, blanked, sizeof blanked, values, SYMBOLS),
            NOSPRIDDA_ACCEPTED, 0, "values from marks, NaN blanked");
    expect(values[0] == 32 && values[9] == 0, "the values with a blanked mark");
}

int main(void)
{
    uint8_t mask[WORD_BYTES] = {0};

    kernels();
    kernel_follow(nospridda_kernel_follow);
    kernel_follow(nospridda_kernel_follow_hadamard);
    kernel_limits(nospridda_kernel_follow);
    kernel_limits(nospridda_kernel_follow_hadamard);
    masks(mask);
    encode_and_undo(mask);
    decode(mask);
    frame_follow();
    one_layer();
    three_layers();
    three_followed();
    plans(mask);
    lists();
    list_refusals();
    marks();
    printf("all twelve functions answer through the header\n");
    return EXIT_SUCCESS;
}
