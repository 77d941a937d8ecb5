/*
 * One frame over a noisy link: a payload of eight bytes is encoded, sent as
 * amplitudes, received with noise and two lost marks, and decoded.
 *
 * Every number that a job answers is looked at. The exit status is 1 where
 * something is not as expected. The noise comes from a fixed seed, and all that
 * is printed is whole numbers, so the output is the same everywhere.
 */
#include <math.h>
#include <stdint.h>
#include <stdio.h>
#include <stdlib.h>
#include <string.h>

#include "nospridda.h"

enum {
    PAYLOAD_BYTES = 8,
    LOST = 40,         /* a mark that the radio lost */
    FADED = 99         /* and another one */
};

/* Two layers, kernel 2 in both; that of the third one is not looked at. */
static const struct nospridda_plan PLAN = {2, {2, 2, 0}};

/* The scale, which a receiver measures for each frame: here amplitude 1 gives the value 32. */
static const float SCALE = 32.0f;

/* Ends the program unless something holds. */
static void expect(int holds, const char *what)
{
    if (!holds) {
        printf("not as expected: %s\n", what);
        exit(EXIT_FAILURE);
    }
}

/* Ends the program unless a job was accepted. */
static void accepted(struct nospridda_outcome outcome, const char *job)
{
    if (outcome.number != NOSPRIDDA_ACCEPTED) {
        printf("%s: refused, number %u, place %zu\n", job, (unsigned)outcome.number, outcome.place);
        exit(EXIT_FAILURE);
    }
}

/* Prints a refusal, and ends the program unless it has this number. */
static void refused(struct nospridda_outcome outcome, const char *job, uint32_t number)
{
    printf("%s: refused, number %u, place %zu\n", job, (unsigned)outcome.number, outcome.place);
    expect(outcome.number == number, "the number of this refusal");
}

static void print_bytes(const char *label, const uint8_t *bytes, size_t length)
{
    size_t i;
    printf("%s", label);
    for (i = 0; i < length; i++) {
        printf("%02x", (unsigned)bytes[i]);
    }
    printf("\n");
}

/* Bit i of packed bytes: index 0 is the most significant bit of the first. */
static int bit(const uint8_t *bytes, size_t i)
{
    return (bytes[i / 8] >> (7 - i % 8)) & 1;
}

static void set_bit(uint8_t *bytes, size_t i)
{
    bytes[i / 8] |= (uint8_t)(0x80 >> (i % 8));
}

/* Noise: the sum of four numbers from -48 to 48, by xorshift. */
static int noise(uint32_t *state)
{
    int sum = 0;
    int i;
    for (i = 0; i < 4; i++) {
        *state ^= *state << 13;
        *state ^= *state >> 17;
        *state ^= *state << 5;
        sum += (int)(*state % 97) - 48;
    }
    return sum;
}

/* The sender: a payload to the word that is sent. */
static void transmit(const uint8_t *mask, const uint8_t *payload, uint8_t *word)
{
    accepted(nospridda_frame_encode(PLAN, mask, NOSPRIDDA_FRAME_BYTES, payload, PAYLOAD_BYTES,
                                    word, NOSPRIDDA_FRAME_BYTES),
             "frame encode");
    print_bytes("payload sent:    ", payload, PAYLOAD_BYTES);
    print_bytes("word sent:       ", word, NOSPRIDDA_FRAME_BYTES);
}

/* The channel: 1 for bit 0, -1 for bit 1, noise in 64ths, and two lost marks. */
static void channel(const uint8_t *word, float *amplitudes)
{
    uint32_t state = 2463534242u;
    size_t i;

    for (i = 0; i < NOSPRIDDA_FRAME_BITS; i++) {
        int level = bit(word, i) ? -64 : 64;
        amplitudes[i] = (float)(level + noise(&state)) / 64.0f;
    }
    amplitudes[2 * LOST] = INFINITY;
    amplitudes[2 * FADED] = 0.0f;
    amplitudes[2 * FADED + 1] = 0.0f;
}

/* The receiver: marks to values, and values to the payload. */
static struct nospridda_outcome receive(float scale, const float *amplitudes, const uint8_t *blanked,
                                        const uint8_t *mask, uint32_t *penalties,
                                        uint8_t *payload, size_t payload_length)
{
    int8_t values[NOSPRIDDA_FRAME_BITS];
    int32_t scores[NOSPRIDDA_FRAME_BITS];
    struct nospridda_outcome outcome = nospridda_values_from_marks(
        scale, amplitudes, NOSPRIDDA_FRAME_BITS, blanked, NOSPRIDDA_MARK_BYTES, values, NOSPRIDDA_FRAME_BITS);

    if (outcome.number == NOSPRIDDA_ACCEPTED) {
        outcome = nospridda_frame_decode(PLAN, values, NOSPRIDDA_FRAME_BITS, mask, NOSPRIDDA_FRAME_BYTES,
                                         scores, NOSPRIDDA_FRAME_BITS, penalties, NOSPRIDDA_FRAME_BITS,
                                         payload, payload_length);
    }
    return outcome;
}

/* An amplitude that is not finite is refused, and nothing is written. */
static void refuse_infinity(const float *amplitudes, const uint8_t *blanked, const uint8_t *mask)
{
    uint32_t penalties[NOSPRIDDA_FRAME_BITS] = {0};
    uint8_t payload[PAYLOAD_BYTES] = {0};
    struct nospridda_outcome outcome = receive(SCALE, amplitudes, blanked, mask, penalties, payload, sizeof payload);
    size_t i;

    refused(outcome, "values from marks, all heard", NOSPRIDDA_NOT_FINITE);
    expect(outcome.place == 2 * LOST, "the place is that of the amplitude");
    for (i = 0; i < NOSPRIDDA_FRAME_BITS; i++) {
        expect(penalties[i] == 0 && payload[i % PAYLOAD_BYTES] == 0, "a refusal changes no buffer");
    }
}

/* What the noise did: counts the values whose sign is not that of their bit,
 * packs all signs, and hands back what the sent word pays. */
static unsigned wrong_signs(const float *amplitudes, const uint8_t *blanked, const uint8_t *word, uint8_t *signs)
{
    int8_t values[NOSPRIDDA_FRAME_BITS];
    unsigned wrong = 0;
    unsigned paid = 0;
    size_t i;

    accepted(nospridda_values_from_marks(SCALE, amplitudes, NOSPRIDDA_FRAME_BITS, blanked, NOSPRIDDA_MARK_BYTES,
                                         values, NOSPRIDDA_FRAME_BITS),
             "values from marks");
    for (i = 0; i < NOSPRIDDA_FRAME_BITS; i++) {
        if (values[i] < 0) {
            set_bit(signs, i);
        }
        if (bit(word, i) ? values[i] > 0 : values[i] < 0) {
            wrong++;
            paid += (unsigned)abs(values[i]);
        }
    }
    printf("wrong signs:     %u of %d values, weight %u\n", wrong, NOSPRIDDA_FRAME_BITS, paid);
    return paid;
}

int main(void)
{
    static const uint8_t sent[PAYLOAD_BYTES] = {0x4a, 0x6f, 0x79, 0x73, 0x74, 0x69, 0x63, 0x6b};
    uint8_t mask[NOSPRIDDA_FRAME_BYTES];
    uint8_t word[NOSPRIDDA_FRAME_BYTES];
    float amplitudes[NOSPRIDDA_FRAME_BITS];
    uint8_t blanked[NOSPRIDDA_MARK_BYTES] = {0};
    uint8_t signs[NOSPRIDDA_FRAME_BYTES] = {0};
    uint8_t decoded[PAYLOAD_BYTES] = {0};
    uint32_t penalties[NOSPRIDDA_FRAME_BITS];
    unsigned paid;

    /* Which of the 256 phases carry the payload. */
    accepted(nospridda_information_mask(PAYLOAD_BYTES, mask, sizeof mask), "information mask");
    expect(nospridda_part_length(PLAN, mask, sizeof mask, NOSPRIDDA_FRAME_BYTES) == PAYLOAD_BYTES,
           "the mask takes this payload");
    transmit(mask, sent, word);
    channel(word, amplitudes);
    refuse_infinity(amplitudes, blanked, mask);

    /* Blanked, both marks give 0, which counts for neither bit. */
    set_bit(blanked, LOST);
    set_bit(blanked, FADED);
    paid = wrong_signs(amplitudes, blanked, word, signs);

    /* The signs alone are no word of this mask, so undoing them is refused. */
    refused(nospridda_frame_undo(PLAN, mask, sizeof mask, signs, sizeof signs, decoded, sizeof decoded),
            "frame undo of the signs", NOSPRIDDA_FROZEN_ONE);

    /* The decoder looks at the sizes too. */
    accepted(receive(SCALE, amplitudes, blanked, mask, penalties, decoded, sizeof decoded), "frame decode");
    printf("final penalty:   %u\n", (unsigned)penalties[NOSPRIDDA_FRAME_BITS - 1]);
    print_bytes("payload decoded: ", decoded, sizeof decoded);

    /* The final penalty is what the decoded word pays: here the weight of the wrong signs. */
    expect(memcmp(sent, decoded, sizeof sent) == 0, "the payload decoded is the one sent");
    expect(penalties[NOSPRIDDA_FRAME_BITS - 1] == paid, "the final penalty is the weight of the wrong signs");
    printf("the payloads agree\n");
    return EXIT_SUCCESS;
}
