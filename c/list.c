/*
 * A noisy frame that frame decode gets wrong and list decode gets right: a
 * payload with its checksum is encoded, received with noise, and decoded by one
 * path and by lists of 1, 2, 4 and 8.
 *
 * The exit status is 1 where something is not as expected. The noise comes from
 * a fixed seed, and all that is printed is whole numbers, so the output is the
 * same everywhere.
 */
#include <stdint.h>
#include <stdio.h>
#include <stdlib.h>
#include <string.h>

#include "nospridda.h"

enum {
    PAYLOAD_BYTES = 16, /* the checksum among them */
    SEED = 8
};

/* Two layers, kernel 2 in both; that of the third one is not looked at. */
static const struct nospridda_plan PLAN = {2, {2, 2, 0}};

/* Ends the program unless something holds. */
static void expect(int holds, const char *what)
{
    if (!holds) {
        printf("not as expected: %s\n", what);
        exit(EXIT_FAILURE);
    }
}

static void print_bytes(const char *label, const uint8_t *bytes, size_t length)
{
    size_t i;
    printf("%s", label);
    for (i = 0; i < length; i++) {
        printf("%02x", (unsigned)bytes[i]);
    }
    printf("\n");
}

/* Bit i of packed bytes: index 0 is the most significant bit of the first. */
static int bit(const uint8_t *bytes, size_t i)
{
    return (bytes[i / 8] >> (7 - i % 8)) & 1;
}

/* The CRC-16 of some bytes: polynomial 1021, start ffff, most significant bit first. */
static uint16_t checksum(const uint8_t *bytes, size_t length)
{
    uint16_t sum = 0xffff;
    size_t i;

    for (i = 0; i < 8 * length; i++) {
        int carry = (sum >> 15) ^ bit(bytes, i);
        sum = (uint16_t)(sum << 1);
        if (carry) {
            sum ^= 0x1021;
        }
    }
    return sum;
}

/* Puts the checksum into the last two bytes of a payload, the high byte first. */
static void seal(uint8_t *payload, size_t length)
{
    uint16_t sum = checksum(payload, length - 2);
    payload[length - 2] = (uint8_t)(sum >> 8);
    payload[length - 1] = (uint8_t)(sum & 0xff);
}

/* Noise: the sum of four numbers from -24 to 24, by xorshift. */
static int noise(uint32_t *state)
{
    int sum = 0;
    int i;
    for (i = 0; i < 4; i++) {
        *state ^= *state << 13;
        *state ^= *state >> 17;
        *state ^= *state << 5;
        sum += (int)(*state % 49) - 24;
    }
    return sum;
}

/* The channel: 32 for bit 0, -32 for bit 1, and noise. */
static void channel(const uint8_t *word, int8_t *values)
{
    uint32_t state = SEED;
    size_t i;

    for (i = 0; i < NOSPRIDDA_FRAME_BITS; i++) {
        int value = (bit(word, i) ? -32 : 32) + noise(&state);
        values[i] = (int8_t)(value > 127 ? 127 : value < -127 ? -127 : value);
    }
}

/* What the sent word pays. */
static unsigned paid(const uint8_t *word, const int8_t *values)
{
    unsigned sum = 0;
    size_t i;

    for (i = 0; i < NOSPRIDDA_FRAME_BITS; i++) {
        if (bit(word, i) ? values[i] > 0 : values[i] < 0) {
            sum += (unsigned)abs(values[i]);
        }
    }
    return sum;
}

/* By one path, with no look at the checksum. */
static void single(const int8_t *values, const uint8_t *mask, uint8_t *payload)
{
    int32_t scores[NOSPRIDDA_FRAME_BITS];
    uint32_t penalties[NOSPRIDDA_FRAME_BITS];
    struct nospridda_outcome outcome = nospridda_frame_decode(
        PLAN, values, NOSPRIDDA_FRAME_BITS, mask, NOSPRIDDA_FRAME_BYTES,
        scores, NOSPRIDDA_FRAME_BITS, penalties, NOSPRIDDA_FRAME_BITS, payload, PAYLOAD_BYTES);

    expect(outcome.number == NOSPRIDDA_ACCEPTED, "frame decode is accepted");
    print_bytes("frame decode:    ", payload, PAYLOAD_BYTES);
    printf("                 penalty %u\n", (unsigned)penalties[NOSPRIDDA_FRAME_BITS - 1]);
}

/* By a list. The scratch needs no content, and holds nothing of the frame afterwards. */
static struct nospridda_penalty_outcome listed(size_t list, const int8_t *values, const uint8_t *mask,
                                               uint8_t *payload)
{
    static uint8_t scratch[NOSPRIDDA_LIST_BYTES];
    struct nospridda_penalty_outcome outcome = nospridda_list_decode(
        PLAN, list, values, NOSPRIDDA_FRAME_BITS, mask, NOSPRIDDA_FRAME_BYTES,
        scratch, sizeof scratch, payload, PAYLOAD_BYTES);

    if (outcome.number == NOSPRIDDA_ACCEPTED) {
        printf("list of %u:", (unsigned)list);
        print_bytes("       ", payload, PAYLOAD_BYTES);
        printf("                 penalty %u\n", (unsigned)outcome.penalty);
    } else {
        expect(outcome.number == NOSPRIDDA_NO_AGREEING_PATH, "the only refusal is that of the checksum");
        printf("list of %u:       refused, number %u\n", (unsigned)list, (unsigned)outcome.number);
    }
    return outcome;
}

int main(void)
{
    uint8_t sent[PAYLOAD_BYTES] = {'t', 'u', 'r', 'n', ' ', 'l', 'e', 'f', 't', ' ', '0', '4', '2', '.'};
    uint8_t mask[NOSPRIDDA_FRAME_BYTES];
    uint8_t word[NOSPRIDDA_FRAME_BYTES];
    int8_t values[NOSPRIDDA_FRAME_BITS];
    uint8_t payload[PAYLOAD_BYTES] = {0};
    struct nospridda_penalty_outcome outcome = {0, 0, 0};
    size_t list;

    seal(sent, sizeof sent);
    expect(nospridda_information_mask(PAYLOAD_BYTES, mask, sizeof mask).number == NOSPRIDDA_ACCEPTED,
           "information mask is accepted");
    expect(nospridda_frame_encode(PLAN, mask, sizeof mask, sent, sizeof sent, word, sizeof word).number ==
               NOSPRIDDA_ACCEPTED,
           "frame encode is accepted");
    channel(word, values);
    print_bytes("payload sent:    ", sent, sizeof sent);
    printf("                 its word pays %u\n", paid(word, values));

    single(values, mask, payload);
    expect(memcmp(sent, payload, sizeof sent) != 0, "frame decode gets this frame wrong");
    for (list = 1; list <= NOSPRIDDA_LIST_PATHS; list *= 2) {
        outcome = listed(list, values, mask, payload);
    }
    expect(outcome.number == NOSPRIDDA_ACCEPTED && memcmp(sent, payload, sizeof sent) == 0,
           "the list of eight gets it right");
    expect(outcome.penalty == paid(word, values), "the penalty is what the sent word pays");
    return EXIT_SUCCESS;
}
