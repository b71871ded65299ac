/*
 * Mordashun: a small database with active rules, as a library for C99.
 *
 * One transaction at a time, an image, a rule book and a log come in; an outcome and an image come out. The
 * library is crates/mordashun_c/out/libmordashun_c.a, which `rt lib` in crates/mordashun_c proves and writes for
 * x86-64 Linux. It needs memcpy, memmove and memset and nothing else, allocates nothing, and keeps nothing
 * between calls.
 *
 * That each function does what is said here is proved (crates/mordashun_c), of callers that keep these duties,
 * which nothing tests:
 *
 *   - A pointer to bytes is not NULL, and as many bytes as its length says can be read there; of an output and
 *     a working room they can also be written. Where the length is 0 the pointer may point anywhere.
 *   - An output and a working room overlap nothing else that the same call is lent.
 *   - Until the call returns, nobody else writes what it was lent, and nobody else reads what it may write.
 *
 * Within these a call takes any bytes and any lengths: what is malformed is refused, and what is too short is
 * refused and not written to. Calls that are lent different memory may run at the same time.
 */
#ifndef MORDASHUN_H
#define MORDASHUN_H

#include <stddef.h>
#include <stdint.h>

#ifdef __cplusplus
extern "C" {
#endif

/* Lengths in bytes. */
#define MORDASHUN_RUN_OUTPUT 1355    /* a run is lent an output of at least so many: the longest image */
#define MORDASHUN_RUN_ROOM 65536     /* and working room of at least so many */
#define MORDASHUN_CHECK_OUTPUT 16    /* a book check is lent an output of at least so many */
#define MORDASHUN_LONGEST_IMAGE 1355 /* no longer image is accepted, */
#define MORDASHUN_LONGEST_BOOK 5480  /* no longer book */
#define MORDASHUN_LONGEST_LOG 5639   /* and no longer log */

/* Refusals, in the order in which they are tried: the first that applies is given. */
enum mordashun_refusal {
    MORDASHUN_NOT_REFUSED = 0,
    MORDASHUN_OUTPUT_TOO_SHORT = 1, /* below MORDASHUN_RUN_OUTPUT, or MORDASHUN_CHECK_OUTPUT for a book check */
    MORDASHUN_ROOM_TOO_SHORT = 2,   /* below MORDASHUN_RUN_ROOM */
    MORDASHUN_IMAGE_MALFORMED = 3,
    MORDASHUN_BOOK_MALFORMED = 4,
    MORDASHUN_PRECEDES_CYCLE = 5,   /* the book's rules precede each other in a circle; inactive rules count */
    MORDASHUN_LOG_MALFORMED = 6
};

/* Outcomes of a run that was not refused. */
enum mordashun_outcome {
    MORDASHUN_COMMIT = 0,      /* no rule is triggered any more: the output has the final image */
    MORDASHUN_ROLLED_BACK = 1, /* by an action of a rule: the output has the start image, as in 2 and 3 */
    MORDASHUN_STEP_LIMIT = 2,  /* a rule was triggered when the book's limit of considerations was reached */
    MORDASHUN_FAILED = 3       /* an operation of the log, or an action of a rule, failed: see the reason */
};

/* Reasons of outcome 3. */
enum mordashun_reason {
    MORDASHUN_NO_REASON = 0,       /* the outcome is not 3 */
    MORDASHUN_NO_SUCH_ROW = 1,     /* the log names a handle that no row has */
    MORDASHUN_FULL = 2,            /* more than 64 rows */
    MORDASHUN_HANDLES_USED_UP = 3, /* the next handle would pass 4294967295 */
    MORDASHUN_SUM_OUT_OF_RANGE = 4 /* a sum leaves signed 32 bits */
};

/*
 * A run. The answer is one word, which the functions below take apart:
 *
 *   bits 0..7    the refusal, 0..6
 *   bits 8..15   the outcome, 0..3
 *   bits 16..23  the reason, 0..4
 *   bits 24..31  0
 *   bits 32..63  the number of considerations, 0..1000
 *
 * Refused: all bits but the refusal's are 0, and no byte of output or room changes. Otherwise the image stands
 * at the front of the output, in as many bytes as mordashun_image_length says, and later bytes are untouched;
 * the first 65,536 bytes of the room are 0, and later bytes are untouched. What output and room hold before the
 * call makes no difference to the answer; memory that was never written should be cleared once.
 */
uint64_t mordashun_run(const uint8_t *image, size_t image_length,
                       const uint8_t *book, size_t book_length,
                       const uint8_t *log, size_t log_length,
                       uint8_t *output, size_t output_length,
                       uint8_t *room, size_t room_length);

/*
 * A book check. The answer is one word: in bits 0..7 refusal 1, 4 or 5, or 0; in bits 32..63 the rule count,
 * 0..16; all other bits are 0.
 *
 * Refused: the count is 0, and no byte of the output changes. Otherwise the rules' numbers stand in total order
 * at the front of the output, one byte each, inactive rules included; later bytes are untouched.
 */
uint64_t mordashun_check(const uint8_t *book, size_t book_length, uint8_t *output, size_t output_length);

/*
 * The bytes of rule k (from 0, in the order of creation), as a part of the caller's book. The answer is one word,
 * which the functions below take apart:
 *
 *   bits 0..31   the size: how many bytes, at least 9 of any rule
 *   bits 32..63  the start: where in the book the first stands; start + size is not past book_length
 *
 * The word is 0 if the book has refusal 4 or 5 or there is no rule k, and never else. Nothing is written.
 */
uint64_t mordashun_rule(const uint8_t *book, size_t book_length, size_t k);

/* The parts of a word. */

/* an enum mordashun_refusal */
static inline unsigned mordashun_refusal_of(uint64_t word) { return (unsigned)(word & 0xff); }

/* an enum mordashun_outcome */
static inline unsigned mordashun_outcome_of(uint64_t word) { return (unsigned)(word >> 8 & 0xff); }

/* an enum mordashun_reason */
static inline unsigned mordashun_reason_of(uint64_t word) { return (unsigned)(word >> 16 & 0xff); }

/* of a run the number of considerations, of a book check the rule count */
static inline uint32_t mordashun_count_of(uint64_t word) { return (uint32_t)(word >> 32); }

/* of a rule: where in the book its bytes start */
static inline size_t mordashun_start_of(uint64_t word) { return (size_t)(word >> 32); }

/* of a rule: how many bytes it has, 0 if there is no such rule */
static inline size_t mordashun_size_of(uint64_t word) { return (size_t)(word & 0xffffffff); }

/* The length of the image at the front of an output, after a run that was not refused: its first four bytes
   count, big-endian, those that follow them. */
static inline size_t mordashun_image_length(const uint8_t *output)
{
    return 4 + ((size_t)output[0] << 24 | (size_t)output[1] << 16 | (size_t)output[2] << 8 | (size_t)output[3]);
}

#ifdef __cplusplus
}
#endif

#endif
