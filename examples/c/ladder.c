/* Starts a register, announces a strike and prints the ladder of December 2026.
 * usage: ladder [file of a calendar; else every weekday has a session] */
#include <sindhopul.h>

#include <stdio.h>

enum { MONDAY = 9816, TUESDAY = 9817 }; /* 16 and 17 November 2026 */
enum { DECEMBER = 323 };

static uint8_t calendar[SINDHOPUL_CALENDAR_BYTES + 1];
static uint8_t listed[SINDHOPUL_REGISTER_BYTES];

/* Day 0 is a Saturday. */
static size_t make_weekdays(void)
{
    unsigned day;
    for (day = 0; day <= 36524; day++) {
        if (day % 7 >= 2) {
            calendar[day / 8] |= (uint8_t)(1u << (day % 8));
        }
    }
    return SINDHOPUL_CALENDAR_BYTES;
}

/* There is room for a byte more, so that a file that is too long is noticed. */
static size_t load(const char *path)
{
    FILE *file = fopen(path, "rb");
    size_t length = 0;
    if (file != NULL) {
        length = fread(calendar, 1, sizeof calendar, file);
        fclose(file);
    }
    return length;
}

static int refused(const char *call, unsigned cause)
{
    fprintf(stderr, "%s refused, cause %u\n", call, cause);
    return 1;
}

static unsigned number_at(const uint8_t *bytes)
{
    return bytes[0] + 256u * bytes[1];
}

static void print_row(const uint8_t *row)
{
    unsigned month = number_at(row), price = number_at(row + 2), first_day = number_at(row + 4);
    uint8_t call[SINDHOPUL_NAME_BYTES], put[SINDHOPUL_NAME_BYTES];
    /* A listed strike has names, so neither is refused. */
    sindhopul_name_write(call, sizeof call, month, 0, price);
    sindhopul_name_write(put, sizeof put, month, 1, price);
    printf("%4u %.11s %.11s since day %u, origin %u\n", price, (char *)call, (char *)put,
           first_day, row[6]);
}

int main(int argument_count, char **arguments)
{
    size_t length = argument_count > 1 ? load(arguments[1]) : make_weekdays();
    sindhopul_listing_result listing;
    sindhopul_announce_result announced;
    sindhopul_rows_result rows;
    unsigned at;

    listing = sindhopul_start(calendar, length, listed, sizeof listed, MONDAY, 241337);
    if (listing.number != SINDHOPUL_ACCEPTED) {
        return refused("start", listing.number);
    }
    printf("day %d: %u rows\n", MONDAY, listing.rows);

    announced = sindhopul_announce(calendar, length, listed, sizeof listed, DECEMBER, 3100);
    if (announced.number != SINDHOPUL_ACCEPTED) {
        return refused("announce", announced.number);
    }
    listing = sindhopul_session(calendar, length, listed, sizeof listed, TUESDAY, 241502);
    if (listing.number != SINDHOPUL_ACCEPTED) {
        return refused("session", listing.number);
    }
    printf("day %d: %u rows, %u of them new\n", TUESDAY, listing.rows, listing.added);

    rows = sindhopul_rows(calendar, length, listed, sizeof listed, DECEMBER);
    if (rows.number != SINDHOPUL_ACCEPTED) {
        return refused("rows", rows.number);
    }
    for (at = 0; at < rows.size; at += SINDHOPUL_ROW_BYTES) {
        print_row(listed + rows.at + at);
    }
    return 0;
}
