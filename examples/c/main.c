/*
 * Runs a file that holds image, book and log one after another, and prints what the program `mordashun` prints
 * for it; then the bytes of the book's first rule.
 */
#include <inttypes.h>
#include <stdio.h>

#include "mordashun.h"

#define MOST 16384 /* no longer input is accepted */
#define REFUSED_TOO_LONG 7u
#define FIRST_ROW 11 /* length (4), version (1), next handle (4), row count (2) */
#define ROW 21       /* handle (4), table (1), four values (4 each) */

/* One byte more than is accepted, so that a longer file shows. */
static uint8_t input[MOST + 1];
static uint8_t output[MORDASHUN_RUN_OUTPUT];
static uint8_t room[MORDASHUN_RUN_ROOM];

static uint32_t number32(const uint8_t *s)
{
    return (uint32_t)s[0] << 24 | (uint32_t)s[1] << 16 | (uint32_t)s[2] << 8 | (uint32_t)s[3];
}

/* Values are in two's complement. */
static int64_t value(const uint8_t *s)
{
    int64_t n = number32(s);
    return n < INT64_C(2147483648) ? n : n - INT64_C(4294967296);
}

/* How long the part at the front is: as its length says, or all that is left. */
static size_t part(const uint8_t *s, size_t left)
{
    if (left < 4 || left - 4 < number32(s)) {
        return left;
    }
    return 4 + (size_t)number32(s);
}

static void print_image(const uint8_t *image)
{
    size_t rows = (size_t)image[9] << 8 | image[10];
    printf(" %" PRIu32 " %zu\n", number32(image + 5), rows);
    for (size_t i = 0; i < rows; i++) {
        const uint8_t *row = image + FIRST_ROW + i * ROW;
        printf("%" PRIu32 " %u", number32(row), row[4]);
        for (size_t j = 0; j < 4; j++) {
            printf(" %" PRId64, value(row + 5 + j * 4));
        }
        printf("\n");
    }
}

static void print_rule(const uint8_t *book, size_t length, size_t k)
{
    uint64_t word = mordashun_rule(book, length, k);
    size_t at = mordashun_start_of(word);
    size_t size = mordashun_size_of(word);
    printf("rule %zu: %zu bytes at %zu of the book:", k, size, at);
    for (size_t i = 0; i < size; i++) {
        printf(" %02X", book[at + i]);
    }
    printf("\n");
}

int main(int argc, char **argv)
{
    if (argc != 2) {
        fprintf(stderr, "usage: %s FILE, which holds image, book and log one after another\n", argv[0]);
        return 2;
    }
    FILE *file = fopen(argv[1], "rb");
    if (file == NULL) {
        perror(argv[1]);
        return 2;
    }
    size_t length = fread(input, 1, sizeof input, file);
    fclose(file);
    if (length > MOST) {
        printf("refused %u\n", REFUSED_TOO_LONG);
        return 0;
    }

    const uint8_t *image = input;
    size_t image_length = part(image, length);
    const uint8_t *book = image + image_length;
    size_t book_length = part(book, length - image_length);
    const uint8_t *log = book + book_length;
    size_t log_length = length - image_length - book_length;

    uint64_t word = mordashun_run(image, image_length, book, book_length, log, log_length,
                                  output, sizeof output, room, sizeof room);
    if (mordashun_refusal_of(word) != MORDASHUN_NOT_REFUSED) {
        printf("refused %u\n", mordashun_refusal_of(word));
    } else {
        printf("%u %u %" PRIu32, mordashun_outcome_of(word), mordashun_reason_of(word), mordashun_count_of(word));
        print_image(output);
    }
    print_rule(book, book_length, 0);
    return 0;
}
