/* What several examples do: say why a call was refused, and read numbers and box files. */
#ifndef COMMON_H
#define COMMON_H
#include <errno.h>
#include <stdint.h>
#include <stdio.h>
#include <stdlib.h>
#include "satmegwo.h"

/* Says which call was refused, by which number, and what that number means; for
 * `return refused(..)` in main. */
static inline int refused(const char *what, uint32_t number)
{
    printf("%s: refused %u: %s\n", what, (unsigned)number, satmegwo_refusal_text(number));
    return 1;
}

/* A whole number in base ten, without a sign or anything else, that is no larger than 2^32 - 1.
 * Returns whether the word is one. */
static inline int read_number(const char *word, uint32_t *number)
{
    char *end;
    unsigned long value;
    errno = 0;
    value = strtoul(word, &end, 10);
    if (word[0] < '0' || word[0] > '9' || *end != '\0' || errno != 0 || value > UINT32_MAX)
        return 0;
    *number = (uint32_t)value;
    return 1;
}

/* The bytes of a file, and one more than the longest box file has, so that a longer one is
 * noticed. */
struct file {
    uint8_t bytes[SATMEGWO_FILE_BYTES + 1];
    size_t length;
};

static inline struct file read_file(FILE *input)
{
    struct file file;
    file.length = fread(file.bytes, 1, sizeof file.bytes, input);
    return file;
}

struct box {
    uint32_t n;
    uint32_t m;
    uint32_t rows[SATMEGWO_MOST_ROWS];
    size_t size; /* 2^n */
};

/* The box of a file's bytes. Returns 0 or the number of a refusal. */
static inline uint32_t box_of(const struct file *file, struct box *box)
{
    uint32_t widths[2] = {0, 0};
    uint32_t number;
    /* If the first byte is not a width, the call refuses it, whatever the length of the rows. */
    box->size = file->length > 0 && file->bytes[0] <= SATMEGWO_MOST_INPUTS ? (size_t)1 << file->bytes[0] : 0;
    number = satmegwo_read_box(file->bytes, file->length, box->rows, box->size, widths, 2);
    box->n = widths[0];
    box->m = widths[1];
    return number;
}

#endif
