/*
 * check_table.c: checks a table image and says what the number means.
 *
 *     check_table          checks the built-in image, document 01's table T
 *     check_table FILE     checks the bytes of FILE; - is standard input
 *
 * The exit status is 0 where the table is accepted, 1 where it is refused, 2
 * where there is nothing to check. Nothing is allocated: the image is read into
 * a buffer one byte larger than the largest table, so that a longer image is
 * still seen to be too long.
 */
#include <stdio.h>
#include <string.h>

#include "balkwizu.h"
#include "codes.h"
#include "example.h"

enum { IMAGE_BYTES_MAX = 4 * BALKWIZU_TABLE_WORDS_MAX + 1 };

static uint8_t image[IMAGE_BYTES_MAX];

/* The built-in table as the little-endian bytes that stand in flash. */
static size_t built_in_image(void)
{
    for (size_t i = 0; i < EXAMPLE_TABLE_WORDS; i++)
        for (size_t byte = 0; byte < 4; byte++)
            image[4 * i + byte] = (uint8_t)(example_table[i] >> (8 * byte));
    return 4 * EXAMPLE_TABLE_WORDS;
}

/* Reads the file into the image: 1 where that worked, with its length. */
static int image_from(const char *name, size_t *len)
{
    FILE *file = strcmp(name, "-") == 0 ? stdin : fopen(name, "rb");
    if (file == NULL)
        return 0;
    *len = fread(image, 1, sizeof image, file);
    int read = !ferror(file);
    if (file != stdin)
        fclose(file);
    return read;
}

int main(int argc, char **argv)
{
    size_t len = 0;
    if (argc > 2) {
        fputs("usage: check_table [FILE]\n", stderr);
        return 2;
    }
    if (argc == 1) {
        len = built_in_image();
    } else if (!image_from(argv[1], &len)) {
        fprintf(stderr, "check_table: cannot read %s\n", argv[1]);
        return 2;
    }
    uint32_t code = balkwizu_table_check(image, len);
    printf("table code %u: %s\n", (unsigned)code,
           code == BALKWIZU_OK ? "accepted" : code_meaning(code));
    return code == BALKWIZU_OK ? 0 : 1;
}
