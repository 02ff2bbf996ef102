/* Fills a catalogue from box files, says where each record lies, and prints the sheet of one
 * of them.
 *
 *     catalogue INDEX FILE..
 *
 * With the library built, from this directory:
 *
 *     gcc catalogue.c -I../include -L../target/staticlib -lsatmegwo -o catalogue
 *     ./catalogue 1 example.box aes.box
 */
#include <stdint.h>
#include <stdio.h>
#include "common.h"
#include "satmegwo.h"

/* A buffer of zeros is an empty catalogue. */
static uint8_t catalogue[SATMEGWO_CATALOGUE_MOST];

/* Adds the bytes of a file, and says where they lie. */
static int add_file(const char *name)
{
    uint32_t index[1], place[2], number;
    struct file file;
    FILE *input = fopen(name, "rb");
    if (input == NULL) {
        printf("%s: cannot be opened\n", name);
        return 1;
    }
    file = read_file(input);
    fclose(input);
    number = satmegwo_add_record(catalogue, sizeof catalogue, file.bytes, file.length, index, 1);
    if (number != 0)
        return refused(name, number);
    number = satmegwo_fetch_record(catalogue, sizeof catalogue, index[0], place, 2);
    if (number != 0)
        return refused(name, number);
    printf("record %u at %u, %u bytes: %s\n", (unsigned)index[0], (unsigned)place[0], (unsigned)place[1], name);
    return 0;
}

/* Fetches a record and prints its sheet: the record is read where it lies. */
static int print_record(uint32_t index)
{
    uint8_t text[SATMEGWO_SHEET_BYTES];
    uint32_t place[2], length[1];
    uint32_t number = satmegwo_fetch_record(catalogue, sizeof catalogue, index, place, 2);
    if (number != 0)
        return refused("fetch", number);
    number = satmegwo_sheet(catalogue + place[0], place[1], text, sizeof text, length, 1);
    if (number != 0)
        return refused("sheet", number);
    return fwrite(text, 1, length[0], stdout) == length[0] ? 0 : 1;
}

int main(int count, char **words)
{
    uint32_t index;
    if (count < 2) {
        printf("usage: catalogue INDEX FILE..\n");
        return 2;
    }
    if (!read_number(words[1], &index)) {
        printf("%s is no index\n", words[1]);
        return 2;
    }
    for (int k = 2; k < count; k++)
        if (add_file(words[k]) != 0)
            return 1;
    return print_record(index);
}
