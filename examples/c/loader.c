/* Reads the file of a day's new series and tells whether a series is among them.
 * usage: loader FILE NAME
 * Exit status: 0 the series is new, 1 it is not, 2 there is no telling. */
#include <sindhopul.h>

#include <stdio.h>
#include <stdlib.h>
#include <string.h>

/* A call and a put for each row. */
enum { MOST_SERIES = 2 * SINDHOPUL_MOST_ROWS };

static uint8_t file[SINDHOPUL_MOST_FILE_BYTES + 1];
static uint8_t series[MOST_SERIES * SINDHOPUL_SERIES_BYTES];

static const char *const origins[] = {
    "", "its month is new", "a finer grid", "a close", "an announcement", "the start",
};

/* Tells whether the file could be read. There is room for a byte more, so that one that is too long
 * is noticed. */
static int load(const char *path, size_t *length)
{
    FILE *opened = fopen(path, "rb");
    int failed;
    if (opened == NULL) {
        return 0;
    }
    *length = fread(file, 1, sizeof file, opened);
    failed = ferror(opened);
    fclose(opened);
    return !failed;
}

static int compare_names(const void *one, const void *other)
{
    return memcmp(one, other, SINDHOPUL_NAME_BYTES);
}

int main(int argument_count, char **arguments)
{
    const char *path, *name;
    const uint8_t *found;
    size_t length;
    sindhopul_name_result named;
    sindhopul_file_read_result today;

    if (argument_count != 3) {
        fputs("usage: loader FILE NAME\n", stderr);
        return 2;
    }
    path = arguments[1];
    name = arguments[2];
    named = sindhopul_name_read((const uint8_t *)name, strlen(name));
    if (named.number != SINDHOPUL_ACCEPTED) {
        fprintf(stderr, "%s is no name of a series, cause %u\n", name, named.number);
        return 2;
    }
    if (!load(path, &length)) {
        perror(path);
        return 2;
    }
    if (length > SINDHOPUL_MOST_FILE_BYTES) {
        fprintf(stderr, "%s is longer than any file of a register\n", path);
        return 2;
    }
    today = sindhopul_file_read(file, length, series, sizeof series);
    if (today.number != SINDHOPUL_ACCEPTED) {
        /* With cause 31 the place stands where the day would. */
        fprintf(stderr, "%s refused, cause %u, place %lu\n", path, today.number,
                (unsigned long)today.day);
        return 2;
    }

    /* Names ascend by byte value. */
    found = (const uint8_t *)bsearch(name, series, today.series, SINDHOPUL_SERIES_BYTES,
                                     compare_names);
    if (found == NULL) {
        printf("%s: not new today, day %lu\n", name, (unsigned long)today.day);
        return 1;
    }
    printf("%s: new today, day %lu, origin %u, %s\n", name, (unsigned long)today.day,
           found[SINDHOPUL_NAME_BYTES], origins[found[SINDHOPUL_NAME_BYTES]]);
    return 0;
}
