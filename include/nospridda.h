/*
 * Nospridda: the jobs of the link, for C.
 *
 * Kernels are numbered 0, 1 and 2. Sixteen symbols or bits stand in one
 * number, index 0 in the most significant bit. A frame has a plan: a count of
 * layers m, which is 1, 2 or 3, and a kernel for each layer. It has 16 to the
 * power m symbols, that is 16, 256 or 4096. Its symbols, words, masks and
 * payloads are bytes, eight bits each, index 0 in the most significant bit of
 * the first; the first three have 2, 32 or 512 of them. A mask marks the
 * information phases: k of them take a payload of k/8 bytes.
 *
 * Every job but the payload part answers with a number. 0 says that it was
 * accepted; 1 to 14 is the first condition that held, in checking order, and
 * the job did nothing else, but for what list decode does before it finds 13.
 * The checking order is 14, 1, 11, 2, 3, 12, 4, 5, 6, 10, 7, 8, 9, 13. With 6, 7
 * and 9 goes a place, counted from 0; with every other number the place is 0.
 * Each job's text names the numbers that it can answer, in checking order; no
 * other one comes.
 *
 * Buffers are handed over as a pointer and then the count of elements, which
 * is not always the count of bytes. A buffer that is const is only read. An
 * accepted job writes the front of its output buffers, as many elements as its
 * text says; they may be longer, and what lies past the written part stays as
 * it was. What they held before does not matter. A refusal changes no buffer,
 * with one exception: 13, which only list decode answers, leaves zeros in the
 * first 8192 bytes of its scratch and touches nothing else.
 *
 * A job keeps nothing from one call to the next: what it answers and writes
 * follows from what it is handed. All this is proved of the library. It allocates
 * nothing, and calls nothing but memcpy and memset. Jobs may run at the same time
 * on different buffers.
 *
 * The library is built for x86-64 Linux, because that is what the kit that
 * proves it compiles for. Firmware on another processor needs the kit's back
 * end for that processor. On x86-64 frame follow and frame decode take at most
 * 5.6 KiB of stack for one layer, 16.4 KiB for two and 66.5 KiB for three, frame
 * encode and frame undo 3.7 KiB, list decode 31.2 KiB, kernel follow 3.4 KiB, and
 * 2.8 KiB by the Hadamard engine, 2.2 KiB of each being the start of a thread
 * (measured for one kernel in all layers, not proved; see docs/BENCH.md).
 *
 * What the caller must keep, and nothing proves or looks at:
 *
 * - A pointer is not null, even where the count is 0, and is aligned for its
 *   type.
 * - A count is true: the buffer has that many elements, those of an input are
 *   set, and those of an output may be written.
 * - No buffer of a call overlaps another one of that call.
 * - Nothing else (a thread, an interrupt, a device) writes to a buffer, or reads
 *   an output, while a job runs.
 * - A float is an IEEE 754 binary32, and the floating-point environment rounds
 *   to nearest and keeps subnormal numbers. A program starts like that, unless
 *   it was linked to flush them to zero, as with gcc's -ffast-math.
 */
#ifndef NOSPRIDDA_H
#define NOSPRIDDA_H

#include <stddef.h>
#include <stdint.h>

/* The version of this interface. It goes up by one with every change of a
 * declaration, a number, a size or a result that callers could rely on. What is
 * only added leaves it as it is. */
#define NOSPRIDDA_VERSION 5

/* Sizes, in elements of the buffer that they are for. */
#define NOSPRIDDA_KERNEL_BITS 16  /* symbols, bits, values and scores of a kernel */
#define NOSPRIDDA_FRAME_BITS 256  /* the same of a frame of two layers; its penalties; the amplitudes of its marks */
#define NOSPRIDDA_FRAME_BYTES 32  /* the symbols, word or mask of such a frame, packed; its longest payload */
#define NOSPRIDDA_FRAME_MARKS 128 /* the marks that carry such a frame */
#define NOSPRIDDA_MARK_BYTES 16   /* a bit for each of them, packed: the blanking mask */
#define NOSPRIDDA_LIST_BYTES 8192 /* the scratch that list decode is lent */

/* The sizes of a frame of m layers, m being 1, 2 or 3; where m is a constant they can be sizes of arrays. */
#define NOSPRIDDA_SYMBOLS(m) ((size_t)1 << (4 * (m)))   /* symbols, values, scores and penalties: 16, 256 or 4096 */
#define NOSPRIDDA_BYTES(m) (NOSPRIDDA_SYMBOLS(m) / 8)   /* symbols, word or mask, packed; the longest payload: 2, 32 or 512 */

/* The most paths that list decode keeps. */
#define NOSPRIDDA_LIST_PATHS 8

/* The most layers of a frame. */
#define NOSPRIDDA_LAYERS 3

#ifdef __cplusplus
extern "C" {
#endif

/* The numbers of an answer. */
enum nospridda_number {
    NOSPRIDDA_ACCEPTED = 0,
    NOSPRIDDA_NO_KERNEL = 1,          /* a kernel number, of a plan that of one of its m layers, is not 0, 1 or 2 */
    NOSPRIDDA_WRONG_LENGTH = 2,       /* an input other than a payload has not the length that its job names */
    NOSPRIDDA_BAD_MASK = 3,           /* a mask marks no phase, or a count that is not a multiple of 8 */
    NOSPRIDDA_WRONG_PAYLOAD = 4,      /* a payload to encode has not the bytes that its mask asks for */
    NOSPRIDDA_SHORT_OUTPUT = 5,       /* an output buffer, or scratch, is shorter than the job needs */
    NOSPRIDDA_VALUE_OUT_OF_RANGE = 6, /* a value lies outside the job's range; place: the lowest such value */
    NOSPRIDDA_NOT_FINITE = 7,         /* a heard amplitude is NaN or infinite; place: the lowest such amplitude */
    NOSPRIDDA_WRONG_SIZE = 8,         /* a payload size for the information mask is outside 1 to 32 */
    NOSPRIDDA_FROZEN_ONE = 9,         /* a word to undo has symbol 1 at an unmarked phase; place: the lowest such phase */
    NOSPRIDDA_BAD_SCALE = 10,         /* the scale of values from marks is not a finite number above zero */
    NOSPRIDDA_WRONG_LIST_SIZE = 11,   /* a count of paths for list decode is outside 1 to 8 */
    NOSPRIDDA_FEW_MARKS = 12,         /* a mask for list decode marks fewer than 24 phases: a checksum and a byte */
    NOSPRIDDA_NO_AGREEING_PATH = 13,  /* no final path of list decode has a checksum that agrees; found last */
    NOSPRIDDA_BAD_LAYERS = 14         /* a plan's count of layers is not 1, 2 or 3, or not 2 for list decode; looked at first */
};

/* The plan of a frame. It is handed over by value.
 *
 * layers     how many layers m the frame has: 1, 2 or 3.
 * kernels    the kernel of each layer, the innermost one first. Only the first
 *            m are looked at; the others may be anything.
 *
 * Phases and places are numbers of m digits of base 16. The most significant
 * digit of a phase belongs to the outermost layer, which is the last one, and
 * the digits of a place run the other way: the least significant one belongs to
 * the outermost layer. A bit of the word is the sum, modulo 2, over all phases
 * of the phase's symbol times the product over the layers of the entry of the
 * layer's kernel at its digit of the phase (the row) and its digit of the place.
 *
 * With two layers, inner kernel A and outer kernel B this is
 * c[16j+t] = sum over r, s of u[16r+s] * A[s][j] * B[r][t]; with one layer it is
 * the word of a kernel. */
struct nospridda_plan {
    uint8_t layers;
    uint8_t kernels[NOSPRIDDA_LAYERS];
};

/* The outcome of a job without a word or a penalty: the number, and the place that a
 * refusal names, counted from 0; 0 where it names none. */
struct nospridda_outcome {
    uint32_t number;
    size_t place;
};

/* The outcome of a job with a word; the word is 0 if the job was refused. */
struct nospridda_word_outcome {
    uint32_t number;
    size_t place;
    uint16_t word;
};

/* The outcome of list decode; the penalty is 0 if the job was refused. */
struct nospridda_penalty_outcome {
    uint32_t number;
    size_t place;
    uint32_t penalty;
};

/* Kernel encode: the word of sixteen symbols.
 *
 * Every number is taken as symbols. There is no buffer.
 *
 * Answers 0 with the word, or
 *   1  kernel is not 0, 1 or 2. */
struct nospridda_word_outcome nospridda_kernel_encode(uint8_t kernel, uint16_t symbols);

/* Kernel undo: the sixteen symbols of a word.
 *
 * Every number is the word of some symbols. There is no buffer.
 *
 * Answers 0 with the symbols (in the field word), or
 *   1  kernel is not 0, 1 or 2. */
struct nospridda_word_outcome nospridda_kernel_undo(uint8_t kernel, uint16_t word);

/* Kernel follow: the scores of sixteen symbols over sixteen channel values.
 *
 * values     16 values, each from -32767 to 32767 and positive for bit 0.
 * scores     16 of them are written, each from -524272 to 524272.
 *
 * The score of a phase is the best score of the words that begin with the
 * symbols before it and have 0 next, less that of the words with 1 next. A word
 * pays |y| for each value y that is above 0 where the word has bit 1, or below 0
 * where it has bit 0; its score is minus what it pays in all.
 *
 * Answers 0, or, with all scores left as they were,
 *   1  kernel is not 0, 1 or 2;
 *   2  values_length is not 16;
 *   5  scores_length is below 16;
 *   6  a value is out of range; place: the index of the lowest, 0 to 15. */
struct nospridda_outcome nospridda_kernel_follow(
    uint8_t kernel,
    const int32_t *values, size_t values_length,
    uint16_t symbols,
    int32_t *scores, size_t scores_length);

/* Kernel follow by the Hadamard engine: the same job. For every request it
 * answers and writes what nospridda_kernel_follow does. It draws the scores of a
 * wide window's paths from a fast Hadamard transform.
 *
 * values     16 values, each from -32767 to 32767 and positive for bit 0.
 * scores     16 of them are written, each from -524272 to 524272.
 *
 * Answers 0, or, with all scores left as they were,
 *   1  kernel is not 0, 1 or 2;
 *   2  values_length is not 16;
 *   5  scores_length is below 16;
 *   6  a value is out of range; place: the index of the lowest, 0 to 15. */
struct nospridda_outcome nospridda_kernel_follow_hadamard(
    uint8_t kernel,
    const int32_t *values, size_t values_length,
    uint16_t symbols,
    int32_t *scores, size_t scores_length);

/* Frame encode: the word of a payload.
 *
 * Below m is the count of the plan's layers, n is 16, 256 or 4096, and b is 2,
 * 32 or 512, for one, two or three layers. So it is for all jobs of frames.
 *
 * mask       b bytes.
 * payload    k/8 bytes, k being the count of phases that the mask marks: of one
 *            layer 8 or 16. Its bits are the symbols at the marked phases, in
 *            rising order; all other symbols are 0. As with every buffer the
 *            pointer is not null, even where payload_length is 0 (which is
 *            refused).
 * word       b bytes are written.
 *
 * Answers 0, or, with word left as it was,
 *  14  m is not 1, 2 or 3;
 *   1  the kernel of one of the m layers is not 0, 1 or 2;
 *   2  mask_length is not b;
 *   3  the mask marks no phase, or a count that is not a multiple of 8;
 *   4  payload_length is not k/8;
 *   5  word_length is below b. */
struct nospridda_outcome nospridda_frame_encode(
    struct nospridda_plan plan,
    const uint8_t *mask, size_t mask_length,
    const uint8_t *payload, size_t payload_length,
    uint8_t *word, size_t word_length);

/* Frame undo: the payload of a word, for the same plan and mask.
 *
 * mask       b bytes.
 * word       b bytes.
 * payload    k/8 bytes are written.
 *
 * Answers 0, or, with payload left as it was,
 *  14  m is not 1, 2 or 3;
 *   1  the kernel of one of the m layers is not 0, 1 or 2;
 *   2  mask_length or word_length is not b;
 *   3  the mask marks no phase, or a count that is not a multiple of 8;
 *   5  payload_length is below k/8;
 *   9  no payload has this word: it has symbol 1 at an unmarked phase; place:
 *      the lowest such phase, 0 to n - 1. */
struct nospridda_outcome nospridda_frame_undo(
    struct nospridda_plan plan,
    const uint8_t *mask, size_t mask_length,
    const uint8_t *word, size_t word_length,
    uint8_t *payload, size_t payload_length);

/* Frame follow: the scores and penalties of n symbols over n channel values.
 *
 * values     n values, each from -127 to 127 and positive for bit 0.
 * symbols    b bytes.
 * scores     n of them are written, each from -127n to 127n: 127n is 2032, 32512
 *            or 520192.
 * penalties  n of them are written, each at most 127n.
 *
 * The score of a phase is as with kernel follow, over the words of the frame.
 * Its penalty is what the best word that begins with the symbols up to and with
 * it pays; that of the last phase is what the word of all symbols pays.
 *
 * Answers 0, or, with both outputs left as they were,
 *  14  m is not 1, 2 or 3;
 *   1  the kernel of one of the m layers is not 0, 1 or 2;
 *   2  values_length is not n, or symbols_length is not b;
 *   5  scores_length or penalties_length is below n;
 *   6  a value is -128; place: the index of the lowest, 0 to n - 1. */
struct nospridda_outcome nospridda_frame_follow(
    struct nospridda_plan plan,
    const int8_t *values, size_t values_length,
    const uint8_t *symbols, size_t symbols_length,
    int32_t *scores, size_t scores_length,
    uint32_t *penalties, size_t penalties_length);

/* Frame decode: the same for the decoder's own symbols, and their payload.
 *
 * values     n values, each from -127 to 127 and positive for bit 0.
 * mask       b bytes.
 * scores     n of them are written, each from -127n to 127n.
 * penalties  n of them are written, each at most 127n.
 * payload    k/8 bytes are written.
 *
 * A symbol is 1 at a marked phase whose score is below 0, else 0. Scores and
 * penalties are those of frame follow for these symbols; the payload is the
 * symbols at the marked phases, in rising order. Every frame that is not refused
 * gives some payload: whether it is the one sent, no job can tell.
 *
 * Answers 0, or, with all three outputs left as they were,
 *  14  m is not 1, 2 or 3;
 *   1  the kernel of one of the m layers is not 0, 1 or 2;
 *   2  values_length is not n, or mask_length is not b;
 *   3  the mask marks no phase, or a count that is not a multiple of 8;
 *   5  scores_length or penalties_length is below n, or payload_length is below
 *      k/8;
 *   6  a value is -128; place: the index of the lowest, 0 to n - 1. */
struct nospridda_outcome nospridda_frame_decode(
    struct nospridda_plan plan,
    const int8_t *values, size_t values_length,
    const uint8_t *mask, size_t mask_length,
    int32_t *scores, size_t scores_length,
    uint32_t *penalties, size_t penalties_length,
    uint8_t *payload, size_t payload_length);

/* List decode: a payload that ends in a checksum, by up to eight paths. It is
 * for frames of two layers only.
 *
 * list       how many paths are kept at most, 1 to 8.
 * values     256 values, each from -127 to 127 and positive for bit 0.
 * mask       32 bytes; it marks 24 phases or more.
 * scratch    8192 bytes of it are used. They end as zeros, whether the request is
 *            accepted or answered with 13; what they held before does not matter.
 * payload    k/8 bytes are written, the two of the checksum among them.
 *
 * The last two bytes of a payload are the CRC-16 of those before them: polynomial
 * 1021 hexadecimal, start ffff, most significant bit first, no final inversion,
 * high byte stored first. The nine bytes "123456789" have 29b1. The sender puts
 * it there; frame encode takes such a payload as any other.
 *
 * A path is a list of symbols; its penalty is what the best word pays that begins
 * with them, as with frame follow. There is one path at first, of no symbols. At a
 * marked phase every path splits in two, with 0 and with 1 next; the paths are
 * ordered by penalty, equal ones by the place of the path that they are from, then
 * 0 before 1, and the first ones stay, as many as list says, or all where there
 * are no more than that. At an unmarked phase each path goes on with 0 and keeps
 * its place. With list 1 the symbols are those of frame decode.
 *
 * The payload is that of the best final path whose checksum agrees: the one of
 * least penalty, and where several have it, the first of them in the order of the
 * list. This need not be the first path that agrees, since unmarked phases after
 * the last marked one change penalties and not the order. The penalty in the
 * outcome, at most 32512, is the penalty of this path: what its word pays. A
 * checksum can agree by chance: that the payload is the one sent, no job can tell.
 *
 * Answers 0 with the penalty, or, with scratch and payload left as they were,
 *  14  m is not 2;
 *   1  the kernel of one of the two layers is not 0, 1 or 2;
 *  11  list is not from 1 to 8;
 *   2  values_length is not 256, or mask_length is not 32;
 *   3  the mask marks no phase, or a count that is not a multiple of 8;
 *  12  the mask marks fewer than 24 phases;
 *   5  payload_length is below k/8, or scratch_length is below 8192;
 *   6  a value is -128; place: the index of the lowest, 0 to 255;
 * or, with payload left as it was and zeros in the first 8192 bytes of scratch,
 *  13  no final path has a checksum that agrees. */
struct nospridda_penalty_outcome nospridda_list_decode(
    struct nospridda_plan plan,
    size_t list,
    const int8_t *values, size_t values_length,
    const uint8_t *mask, size_t mask_length,
    uint8_t *scratch, size_t scratch_length,
    uint8_t *payload, size_t payload_length);

/* Payload part: how many of the first bytes of a buffer hold the payload.
 *
 * mask       any length; only one of b bytes has a payload.
 * length     the bytes of the buffer, which itself is not handed over.
 *
 * Answers k/8 for a length of exactly b. Answers 0 for another length, a mask
 * that is not b bytes, one that marks no phase or a count that is not a multiple
 * of 8, and a plan that other jobs refuse by 14 or 1. This job has no numbers and
 * refuses nothing. */
size_t nospridda_part_length(
    struct nospridda_plan plan,
    const uint8_t *mask, size_t mask_length,
    size_t length);

/* Information mask: the mask for a payload of p bytes, for two layers with
 * kernel 2 in both.
 *
 * mask       32 bytes are written; they mark 8p phases.
 *
 * Answers 0, or, with mask left as it was,
 *   5  mask_length is below 32;
 *   8  p is not from 1 to 32. */
struct nospridda_outcome nospridda_information_mask(
    size_t p,
    uint8_t *mask, size_t mask_length);

/* Values from marks: the channel values of 128 received marks, under a scale.
 *
 * scale      a finite number above zero, of any size; the receiver measures it.
 * amplitudes 256 floats; 2n and 2n+1 are I and Q of mark n.
 * blanked    16 bytes, one bit for each mark, 1 for a blanked one.
 * values     256 of them are written, each from -127 to 127.
 *
 * A blanked mark gives 0 and 0; its amplitudes are not looked at and may be
 * anything, NaN too. A heard amplitude times the scale is rounded once in float
 * and then goes to the nearest whole number, a half to the neighbour farther
 * from zero, then to the range -127 to 127; a product that overflows float goes
 * to 127 or -127 by its sign, and minus zero gives 0. Each value of a heard mark
 * lies within 1/2 + 1/131072 of the exact product limited to -127 to 127.
 *
 * Answers 0, or, with values left as they were,
 *   2  amplitudes_length is not 256, or blanked_length is not 16;
 *   5  values_length is below 256;
 *  10  scale is not a finite number above zero: NaN, infinite, zero or below;
 *      also where every mark is blanked;
 *   7  an amplitude of a heard mark is NaN or infinite; place: the index of the
 *      lowest such amplitude, 0 to 255. */
struct nospridda_outcome nospridda_values_from_marks(
    float scale,
    const float *amplitudes, size_t amplitudes_length,
    const uint8_t *blanked, size_t blanked_length,
    int8_t *values, size_t values_length);

#ifdef __cplusplus
}
#endif

#endif
