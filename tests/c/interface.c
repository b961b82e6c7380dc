/* The C interface on worked examples of documents 01 and 02, refusals and guarded buffers.
 * It is C11 and C++11 alike, so that the header is tried in both. */
#include "sindhopul.h"

#include <stdio.h>
#include <string.h>

#define CHECK(holds) check((holds), #holds, __LINE__)

enum { GUARD = 16, GUARD_BYTE = 0xa5, LONGEST = 40, ROOM = GUARD + LONGEST + GUARD };

/* June 2026, with its third Friday, and December 2099, the last month. */
enum { JUNE = 317, JUNE_FIRST = 9648, JUNE_FRIDAY = 9666 };
enum { LAST = 1199, LAST_FIRST = 36494, LAST_FRIDAY = 36511 };

enum { CLOSE = 241337, FIRST_ROW = 136 };

static int failures = 0;

static void check(int holds, const char *what, int line)
{
    if (!holds) {
        fprintf(stderr, "interface.c:%d: not so: %s\n", line, what);
        failures++;
    }
}

/* Names */

static int is_name(sindhopul_name_result got, unsigned number, unsigned month, unsigned type,
                   unsigned price)
{
    return got.number == number && got.month == month && got.type == type && got.price == price;
}

/* Reads from a guarded buffer, which no reading may change. */
static sindhopul_name_result read_text(const char *text)
{
    uint8_t room[ROOM], before[ROOM];
    sindhopul_name_result result;
    memset(room, GUARD_BYTE, sizeof room);
    memcpy(room + GUARD, text, strlen(text));
    memcpy(before, room, sizeof room);
    result = sindhopul_name_read(room + GUARD, strlen(text));
    CHECK(memcmp(room, before, sizeof room) == 0);
    return result;
}

/* Writes into a guarded buffer and says whether exactly these bytes of it changed. */
static int writes(const char *expected, uint32_t month, uint32_t type, uint32_t price)
{
    uint8_t room[ROOM], after[ROOM];
    memset(room, GUARD_BYTE, sizeof room);
    memset(after, GUARD_BYTE, sizeof after);
    memcpy(after + GUARD, expected, SINDHOPUL_NAME_BYTES);
    return sindhopul_name_write(room + GUARD, SINDHOPUL_NAME_BYTES, month, type, price) == 0
           && memcmp(room, after, sizeof room) == 0;
}

/* Writes into a guarded buffer and says whether that is refused with no byte changed. */
static int refuses(unsigned number, size_t length, uint32_t month, uint32_t type, uint32_t price)
{
    uint8_t room[ROOM], after[ROOM];
    memset(room, GUARD_BYTE, sizeof room);
    memset(after, GUARD_BYTE, sizeof after);
    return sindhopul_name_write(room + GUARD, length, month, type, price) == number
           && memcmp(room, after, sizeof room) == 0;
}

static void test_names_written(void)
{
    CHECK(writes("OW20L262400", 323, 0, 2400));
    CHECK(writes("OW20X262400", 323, 1, 2400));
    CHECK(writes("OW20A000005", 0, 0, 5));
    CHECK(writes("OW20X999975", 1199, 1, 9975));
}

static void test_names_not_written(void)
{
    size_t length;
    for (length = 0; length <= LONGEST; length++) {
        if (length != SINDHOPUL_NAME_BYTES) {
            CHECK(refuses(27, length, 323, 0, 2400));
            CHECK(refuses(27, length, 1200, 2, 2401));
        }
    }
    CHECK(sindhopul_name_write(NULL, 0, 323, 0, 2400) == 27);
    CHECK(refuses(28, SINDHOPUL_NAME_BYTES, 1200, 0, 2400));
    CHECK(refuses(28, SINDHOPUL_NAME_BYTES, 65536 + 323, 0, 2400));
    CHECK(refuses(28, SINDHOPUL_NAME_BYTES, 323, 2, 2400));
    CHECK(refuses(28, SINDHOPUL_NAME_BYTES, 323, 65536, 2400));
    CHECK(refuses(28, SINDHOPUL_NAME_BYTES, 323, 0, 0));
    CHECK(refuses(28, SINDHOPUL_NAME_BYTES, 323, 0, 2401));
    CHECK(refuses(28, SINDHOPUL_NAME_BYTES, 323, 0, 10000));
    CHECK(refuses(28, SINDHOPUL_NAME_BYTES, 323, 0, 65536 + 2400));
}

static void test_names_read(void)
{
    CHECK(is_name(read_text("OW20L262400"), 0, 323, 0, 2400));
    CHECK(is_name(read_text("OW20X262400"), 0, 323, 1, 2400));
    CHECK(is_name(read_text("OW20A000005"), 0, 0, 0, 5));
    CHECK(is_name(read_text("OW20X999975"), 0, 1199, 1, 9975));
}

static void test_names_not_read(void)
{
    const char *good = "OW20L262400";
    char damaged[SINDHOPUL_NAME_BYTES + 1];
    unsigned place;
    for (place = 0; place < SINDHOPUL_NAME_BYTES; place++) {
        strcpy(damaged, good);
        damaged[place] = '?';
        CHECK(is_name(read_text(damaged), 29, place, 0, 0));
    }
    CHECK(is_name(read_text("OW20l262400"), 29, 4, 0, 0));
    CHECK(is_name(read_text("OW20Y262401"), 29, 4, 0, 0));
    CHECK(is_name(read_text("OW20L262401"), 28, 0, 0, 0));
    CHECK(is_name(read_text("OW20L260000"), 28, 0, 0, 0));
    CHECK(is_name(read_text("OW20L26240"), 27, 0, 0, 0));
    CHECK(is_name(read_text("OW20L2624000"), 27, 0, 0, 0));
    CHECK(is_name(read_text(""), 27, 0, 0, 0));
    CHECK(is_name(sindhopul_name_read(NULL, 0), 27, 0, 0, 0));
}

/* Calendars */

/* A calendar with a byte to spare, so that one too long can be lent as well. */
typedef struct {
    uint8_t bytes[SINDHOPUL_CALENDAR_BYTES + 1];
} sessions;

static sessions every_day(void)
{
    sessions made;
    memset(made.bytes, 0xff, sizeof made.bytes);
    made.bytes[SINDHOPUL_CALENDAR_BYTES - 1] = 0x1f;
    return made;
}

static void turn(sessions *changed, unsigned day)
{
    changed->bytes[day / 8] ^= (uint8_t)(1u << (day % 8));
}

static void clear(sessions *changed, unsigned first, unsigned last)
{
    unsigned day;
    for (day = first; day <= last; day++) {
        changed->bytes[day / 8] &= (uint8_t)~(1u << (day % 8));
    }
}

/* Whether the check gives this result and leaves the calendar as it is. */
static int checks(const sessions *lent, size_t length, unsigned number, unsigned month)
{
    sessions before = *lent;
    sindhopul_calendar_result got = sindhopul_calendar_check(lent->bytes, length);
    return got.number == number && got.month == month
           && memcmp(before.bytes, lent->bytes, sizeof before.bytes) == 0;
}

static void test_calendars_accepted(void)
{
    sessions some = every_day();
    CHECK(checks(&some, SINDHOPUL_CALENDAR_BYTES, 0, 0));
    clear(&some, JUNE_FIRST + 1, JUNE_FRIDAY);
    CHECK(checks(&some, SINDHOPUL_CALENDAR_BYTES, 0, 0));
    turn(&some, JUNE_FIRST);
    turn(&some, JUNE_FRIDAY);
    CHECK(checks(&some, SINDHOPUL_CALENDAR_BYTES, 0, 0));
}

static void test_calendar_length(void)
{
    sindhopul_calendar_result got = sindhopul_calendar_check(NULL, 0);
    sessions full = every_day();
    CHECK(got.number == 11 && got.month == 0);
    CHECK(checks(&full, 0, 11, 0));
    CHECK(checks(&full, SINDHOPUL_CALENDAR_BYTES - 1, 11, 0));
    CHECK(checks(&full, SINDHOPUL_CALENDAR_BYTES + 1, 11, 0));
    turn(&full, 36525);
    CHECK(checks(&full, SINDHOPUL_CALENDAR_BYTES + 1, 11, 0));
}

static void test_calendar_tail(void)
{
    unsigned day;
    for (day = 36525; day <= 36527; day++) {
        sessions some = every_day();
        turn(&some, day);
        CHECK(checks(&some, SINDHOPUL_CALENDAR_BYTES, 12, 0));
        clear(&some, 0, 36524);
        CHECK(checks(&some, SINDHOPUL_CALENDAR_BYTES, 12, 0));
    }
}

static void test_calendar_months(void)
{
    sessions some = every_day();
    clear(&some, LAST_FIRST, LAST_FRIDAY);
    CHECK(checks(&some, SINDHOPUL_CALENDAR_BYTES, 13, LAST));
    clear(&some, JUNE_FIRST, JUNE_FRIDAY);
    CHECK(checks(&some, SINDHOPUL_CALENDAR_BYTES, 13, JUNE));
    clear(&some, 0, 36524);
    CHECK(checks(&some, SINDHOPUL_CALENDAR_BYTES, 13, 0));
}

/* Registers */

/* A register between guard bytes, and the calendar that goes with it. */
typedef struct {
    sessions calendar;
    uint8_t room[GUARD + SINDHOPUL_REGISTER_BYTES + GUARD];
} desk;

static desk empty_desk(void)
{
    desk made;
    made.calendar = every_day();
    memset(made.room, GUARD_BYTE, sizeof made.room);
    memset(made.room + GUARD, 0, SINDHOPUL_REGISTER_BYTES);
    return made;
}

static uint8_t *at(desk *used, size_t place)
{
    return used->room + GUARD + place;
}

static sindhopul_listing_result start(desk *used, uint32_t day, uint32_t close)
{
    return sindhopul_start(used->calendar.bytes, SINDHOPUL_CALENDAR_BYTES, at(used, 0),
                           SINDHOPUL_REGISTER_BYTES, day, close);
}

static sindhopul_listing_result session(desk *used, uint32_t day, uint32_t close)
{
    return sindhopul_session(used->calendar.bytes, SINDHOPUL_CALENDAR_BYTES, at(used, 0),
                             SINDHOPUL_REGISTER_BYTES, day, close);
}

static sindhopul_announce_result announce(desk *used, uint32_t month, uint32_t price)
{
    return sindhopul_announce(used->calendar.bytes, SINDHOPUL_CALENDAR_BYTES, at(used, 0),
                              SINDHOPUL_REGISTER_BYTES, month, price);
}

static sindhopul_rows_result rows(desk *used, uint32_t month)
{
    return sindhopul_rows(used->calendar.bytes, SINDHOPUL_CALENDAR_BYTES, at(used, 0),
                          SINDHOPUL_REGISTER_BYTES, month);
}

static int is_listing(sindhopul_listing_result got, unsigned number, unsigned added,
                      unsigned removed, unsigned row_count)
{
    return got.number == number && got.added == added && got.removed == removed
           && got.rows == row_count;
}

static int is_announce(sindhopul_announce_result got, unsigned number, unsigned waiting)
{
    return got.number == number && got.waiting == waiting;
}

static int is_rows(sindhopul_rows_result got, unsigned number, unsigned first, unsigned size)
{
    return got.number == number && got.at == first && got.size == size;
}

/* Started two days before the June expiry: 94 rows. */
static desk started_desk(void)
{
    desk made = empty_desk();
    CHECK(is_listing(start(&made, JUNE_FRIDAY - 2, CLOSE), 0, 94, 0, 94));
    return made;
}

static int guards_stand(desk *used)
{
    unsigned place;
    for (place = 0; place < GUARD; place++) {
        if (used->room[place] != GUARD_BYTE
            || *at(used, SINDHOPUL_REGISTER_BYTES + place) != GUARD_BYTE) {
            return 0;
        }
    }
    return 1;
}

/* Neither register nor guards nor calendar differ. */
static int same(const desk *one, const desk *other)
{
    return memcmp(one, other, sizeof *one) == 0;
}

static void test_register_listed(void)
{
    const uint8_t header[8] = {1, 0, 0xc0, 0x25, 94, 0, 0, 0};
    const uint8_t first_row[8] = {0x3d, 1, 0xe9, 7, 0xc0, 0x25, 5, 0};
    const uint8_t announced[4] = {0x3e, 1, 0x1c, 0x0c};
    const uint8_t no_announcement[4] = {0, 0, 0, 0};
    desk some = started_desk();
    sessions calendar = some.calendar;
    CHECK(memcmp(at(&some, 0), header, sizeof header) == 0);
    CHECK(memcmp(at(&some, FIRST_ROW), first_row, sizeof first_row) == 0);
    CHECK(is_announce(announce(&some, JUNE + 1, 3100), 0, 1));
    CHECK(*at(&some, 1) == 1);
    CHECK(memcmp(at(&some, 8), announced, sizeof announced) == 0);
    CHECK(is_listing(session(&some, JUNE_FRIDAY - 1, CLOSE), 0, 6, 0, 100));
    CHECK(*at(&some, 1) == 0);
    CHECK(memcmp(at(&some, 8), no_announcement, sizeof no_announcement) == 0);
    CHECK(is_listing(session(&some, JUNE_FRIDAY, CLOSE), 0, 0, 0, 100));
    /* June leaves with 33 rows. On their finer grids July gets 22 and September 8 between those
     * that stand, and the new month has 9. */
    CHECK(is_listing(session(&some, JUNE_FRIDAY + 1, CLOSE), 0, 39, 33, 106));
    CHECK(guards_stand(&some));
    CHECK(memcmp(calendar.bytes, some.calendar.bytes, sizeof calendar.bytes) == 0);
}

/* What a far close adds stays when the close returns. */
static void test_far_close(void)
{
    desk some = started_desk();
    CHECK(is_listing(session(&some, JUNE_FRIDAY - 1, CLOSE + 100000), 0, 110, 0, 204));
    CHECK(is_listing(session(&some, JUNE_FRIDAY, CLOSE), 0, 0, 0, 204));
    CHECK(guards_stand(&some));
}

static void test_rows(void)
{
    desk some = started_desk();
    desk before = some;
    CHECK(is_rows(rows(&some, JUNE), 0, FIRST_ROW, 33 * SINDHOPUL_ROW_BYTES));
    CHECK(is_rows(rows(&some, JUNE + 1), 0, FIRST_ROW + 33 * SINDHOPUL_ROW_BYTES,
                  17 * SINDHOPUL_ROW_BYTES));
    CHECK(is_rows(rows(&some, JUNE - 1), 26, 0, 0));
    CHECK(is_rows(rows(&some, 65536 + JUNE), 26, 0, 0));
    clear(&some.calendar, LAST_FIRST, LAST_FRIDAY);
    CHECK(is_rows(rows(&some, JUNE), 13, 0, 0));
    some.calendar = before.calendar;
    CHECK(same(&some, &before));
}

static void test_empty_register(void)
{
    desk some = empty_desk();
    desk before = some;
    CHECK(is_listing(session(&some, JUNE_FRIDAY, CLOSE), 17, 0, 0, 0));
    CHECK(is_announce(announce(&some, JUNE, 3100), 17, 0));
    CHECK(is_rows(rows(&some, JUNE), 17, 0, 0));
    CHECK(is_listing(start(&some, 36525, CLOSE), 18, 0, 0, 0));
    CHECK(is_listing(start(&some, LAST_FRIDAY, CLOSE), 20, 0, 0, 0));
    CHECK(is_listing(start(&some, JUNE_FRIDAY, 8999), 21, 0, 0, 0));
    CHECK(is_listing(start(&some, JUNE_FRIDAY, 955000), 21, 0, 0, 0));
    CHECK(same(&some, &before));
}

static void test_running_register(void)
{
    desk some = started_desk();
    desk before = some;
    CHECK(is_listing(start(&some, JUNE_FRIDAY, CLOSE), 16, 0, 0, 0));
    CHECK(is_listing(session(&some, JUNE_FRIDAY, CLOSE), 19, 0, 0, 0));
    CHECK(is_listing(session(&some, JUNE_FRIDAY - 1, 8999), 21, 0, 0, 0));
    CHECK(is_announce(announce(&some, JUNE + 4, 3100), 22, 0));
    CHECK(is_announce(announce(&some, JUNE + 1, 3125), 23, 0));
    CHECK(is_announce(announce(&some, JUNE + 1, 2800), 24, 0));
    CHECK(same(&some, &before));
}

static void test_announcements_full(void)
{
    desk some = started_desk(), before;
    unsigned waiting;
    for (waiting = 1; waiting <= SINDHOPUL_MOST_ANNOUNCEMENTS; waiting++) {
        CHECK(is_announce(announce(&some, JUNE, 2825 + 25 * waiting), 0, waiting));
    }
    before = some;
    CHECK(is_announce(announce(&some, JUNE, 9975), 25, 0));
    CHECK(is_announce(announce(&some, JUNE, 2850), 24, 0));
    CHECK(same(&some, &before));
}

static void test_register_refused(void)
{
    desk some = started_desk(), before;
    sindhopul_announce_result got;
    *at(&some, 7) = 1;
    before = some;
    CHECK(is_listing(start(&some, JUNE_FRIDAY, CLOSE), 15, 0, 0, 0));
    CHECK(is_listing(session(&some, JUNE_FRIDAY - 1, CLOSE), 15, 0, 0, 0));
    CHECK(is_announce(announce(&some, JUNE, 3100), 15, 0));
    CHECK(is_rows(rows(&some, JUNE), 15, 0, 0));
    got = sindhopul_announce(some.calendar.bytes, SINDHOPUL_CALENDAR_BYTES, at(&some, 0),
                             SINDHOPUL_REGISTER_BYTES + 1, JUNE, 3100);
    CHECK(is_announce(got, 14, 0));
    got = sindhopul_announce(some.calendar.bytes, SINDHOPUL_CALENDAR_BYTES, NULL, 0, JUNE, 3100);
    CHECK(is_announce(got, 14, 0));
    got = sindhopul_announce(NULL, 0, at(&some, 0), SINDHOPUL_REGISTER_BYTES, JUNE, 3100);
    CHECK(is_announce(got, 11, 0));
    CHECK(same(&some, &before));
}

/* With 13 the month is the first value beside the number. */
static void test_register_without_month(void)
{
    desk some = started_desk(), before;
    clear(&some.calendar, LAST_FIRST, LAST_FRIDAY);
    before = some;
    CHECK(is_listing(start(&some, JUNE_FRIDAY, CLOSE), 13, LAST, 0, 0));
    CHECK(is_listing(session(&some, JUNE_FRIDAY - 1, CLOSE), 13, LAST, 0, 0));
    CHECK(is_announce(announce(&some, JUNE, 3100), 13, LAST));
    CHECK(same(&some, &before));
}

/* Files of series */

/* A buffer between guard bytes, filled with them too. */
typedef struct {
    uint8_t bytes[GUARD + SINDHOPUL_MOST_FILE_BYTES + GUARD];
} sheet;

static sheet blank_sheet(void)
{
    sheet made;
    memset(made.bytes, GUARD_BYTE, sizeof made.bytes);
    return made;
}

static uint8_t *on(sheet *used, size_t place)
{
    return used->bytes + GUARD + place;
}

/* Whether all bytes stand as they were filled, but for so many of the buffer. */
static int stands_behind(sheet *used, size_t length)
{
    sheet blank = blank_sheet();
    memcpy(on(&blank, 0), on(used, 0), length);
    return memcmp(blank.bytes, used->bytes, sizeof blank.bytes) == 0;
}

static sindhopul_file_write_result write_file(desk *used, sheet *file, size_t length)
{
    return sindhopul_file_write(used->calendar.bytes, SINDHOPUL_CALENDAR_BYTES, at(used, 0),
                                SINDHOPUL_REGISTER_BYTES, on(file, 0), length);
}

static int is_written(sindhopul_file_write_result got, unsigned number, uint32_t length)
{
    return got.number == number && got.length == length;
}

static int is_contents(sindhopul_file_read_result got, unsigned number, uint32_t day,
                       uint32_t series)
{
    return got.number == number && got.day == day && got.series == series;
}

/* Whether writing is refused so, with no byte changed of buffer, register or calendar. */
static int keeps_file(desk *used, size_t length, unsigned number, uint32_t month)
{
    desk before = *used;
    sheet file = blank_sheet();
    return is_written(write_file(used, &file, length), number, month) && stands_behind(&file, 0)
           && same(used, &before);
}

/* Whether reading is refused so, with no byte changed of file or buffer. */
static int keeps_list(const uint8_t *file, size_t length, size_t room, unsigned number,
                      uint32_t place)
{
    sheet lent = blank_sheet(), before, list = blank_sheet();
    memcpy(on(&lent, 0), file, length);
    before = lent;
    return is_contents(sindhopul_file_read(on(&lent, 0), length, on(&list, 0), room), number,
                       place, 0)
           && stands_behind(&list, 0) && memcmp(&lent, &before, sizeof lent) == 0;
}

/* The field of a series, 15 bytes. */
static void put_field(uint8_t *field, const char *name, uint8_t origin)
{
    field[0] = 2;
    field[1] = SINDHOPUL_SERIES_BYTES;
    field[2] = 0;
    memcpy(field + 3, name, SINDHOPUL_NAME_BYTES);
    field[3 + SINDHOPUL_NAME_BYTES] = origin;
}

static void test_file_bytes(void)
{
    CHECK(SINDHOPUL_SERIES_BYTES == 12);
    CHECK(SINDHOPUL_MOST_FILE_BYTES == 41735);
}

/* The start's 94 rows are 188 series. By their letters those of March 2027 come first. */
static void test_file_written(void)
{
    const uint8_t head[5] = {1, 2, 0, 0xc0, 0x25};
    uint8_t first[15], last[15];
    desk some = started_desk(), before = some;
    sheet file = blank_sheet(), list = blank_sheet();
    put_field(first, "OW20C272000", 5);
    put_field(last, "OW20X262800", 5);
    CHECK(is_written(write_file(&some, &file, SINDHOPUL_MOST_FILE_BYTES), 0, 2825));
    CHECK(stands_behind(&file, 2825));
    CHECK(same(&some, &before));
    CHECK(memcmp(on(&file, 0), head, sizeof head) == 0);
    CHECK(memcmp(on(&file, 5), first, sizeof first) == 0);
    CHECK(memcmp(on(&file, 2810), last, sizeof last) == 0);
    CHECK(is_contents(sindhopul_file_read(on(&file, 0), 2825, on(&list, 0), 188 * 12), 0,
                      JUNE_FRIDAY - 2, 188));
    CHECK(stands_behind(&list, 188 * 12));
    CHECK(memcmp(on(&list, 0), first + 3, 12) == 0);
    CHECK(memcmp(on(&list, 187 * 12), last + 3, 12) == 0);
}

/* A buffer of the file's length is long enough, and none that is shorter. */
static void test_file_lengths(void)
{
    desk some = started_desk();
    sheet file = blank_sheet(), list;
    size_t length;
    CHECK(is_written(write_file(&some, &file, 2825), 0, 2825));
    CHECK(stands_behind(&file, 2825));
    for (length = 0; length < 2825; length++) {
        CHECK(keeps_file(&some, length, 30, 0));
    }
    for (length = 0; length < 188 * 12; length += 11) {
        CHECK(keeps_list(on(&file, 0), 2825, length, 30, 0));
    }
    CHECK(keeps_list(on(&file, 0), 2825, 188 * 12 - 1, 30, 0));
    list = blank_sheet();
    CHECK(is_contents(
        sindhopul_file_read(on(&file, 0), 2825, on(&list, 0), SINDHOPUL_MOST_FILE_BYTES), 0,
        JUNE_FRIDAY - 2, 188));
    CHECK(stands_behind(&list, 188 * 12));
}

/* A session that lists nothing has a file of its day alone, and a list of no byte. */
static void test_file_of_nothing(void)
{
    const uint8_t written[5] = {1, 2, 0, 0xc1, 0x25};
    desk some = started_desk();
    sheet file = blank_sheet();
    CHECK(is_listing(session(&some, JUNE_FRIDAY - 1, CLOSE), 0, 0, 0, 94));
    CHECK(keeps_file(&some, 4, 30, 0));
    CHECK(is_written(write_file(&some, &file, 5), 0, 5));
    CHECK(stands_behind(&file, 5));
    CHECK(memcmp(on(&file, 0), written, sizeof written) == 0);
    CHECK(is_contents(sindhopul_file_read(on(&file, 0), 5, NULL, 0), 0, JUNE_FRIDAY - 1, 0));
}

static void test_file_not_written(void)
{
    desk some = empty_desk();
    CHECK(keeps_file(&some, SINDHOPUL_MOST_FILE_BYTES, 17, 0));
    CHECK(keeps_file(&some, 0, 17, 0));
    some = started_desk();
    CHECK(is_written(sindhopul_file_write(some.calendar.bytes, SINDHOPUL_CALENDAR_BYTES,
                                          at(&some, 0), SINDHOPUL_REGISTER_BYTES, NULL, 0),
                     30, 0));
    *at(&some, 7) = 1;
    CHECK(keeps_file(&some, SINDHOPUL_MOST_FILE_BYTES, 15, 0));
    CHECK(is_written(sindhopul_file_write(some.calendar.bytes, SINDHOPUL_CALENDAR_BYTES, NULL, 0,
                                          NULL, 0),
                     14, 0));
    CHECK(is_written(sindhopul_file_write(NULL, 0, NULL, 0, NULL, 0), 11, 0));
    clear(&some.calendar, LAST_FIRST, LAST_FRIDAY);
    CHECK(keeps_file(&some, SINDHOPUL_MOST_FILE_BYTES, 13, LAST));
    turn(&some.calendar, 36525);
    CHECK(keeps_file(&some, SINDHOPUL_MOST_FILE_BYTES, 12, 0));
}

static void test_days_read(void)
{
    uint8_t file[6] = {1, 2, 0, 0xac, 0x8e, 0};
    CHECK(is_contents(sindhopul_file_read(file, 5, NULL, 0), 0, 36524, 0));
    CHECK(keeps_list(file, 6, 12, 31, 5));
    file[3] = 0xad;
    CHECK(keeps_list(file, 5, 12, 31, 3));
    CHECK(keeps_list(file, 6, 12, 31, 3));
    CHECK(keeps_list(file, 4, 12, 31, 4));
    CHECK(is_contents(sindhopul_file_read(NULL, 0, NULL, 0), 31, 0, 0));
}

static void test_files_not_read(void)
{
    uint8_t file[35] = {1, 2, 0, 0xc0, 0x25}, damaged[35];
    unsigned place;
    put_field(file + 5, "OW20L262400", 1);
    put_field(file + 20, "OW20L262425", 5);
    for (place = 0; place < sizeof file; place++) {
        if (place != 3 && place != 4) {
            memcpy(damaged, file, sizeof file);
            damaged[place] = '?';
            CHECK(keeps_list(damaged, sizeof file, 24, 31, place));
        }
        if (place != 5 && place != 20) {
            CHECK(keeps_list(file, place, 24, 31, place));
        }
    }
    /* Of content that does not fit the first byte is told: a price, a name that is not above. */
    put_field(file + 20, "OW20L262426", 5);
    CHECK(keeps_list(file, sizeof file, 24, 31, 23));
    CHECK(keeps_list(file, sizeof file, 0, 31, 23));
    put_field(file + 20, "OW20L262400", 5);
    CHECK(keeps_list(file, sizeof file, 24, 31, 23));
    put_field(file + 20, "OW20A272400", 5);
    CHECK(keeps_list(file, sizeof file, 24, 31, 23));
    /* In a field that is not whole, or has another fault, that is told. */
    put_field(file + 20, "OW20A272401", 6);
    CHECK(keeps_list(file, sizeof file, 24, 31, 34));
    CHECK(keeps_list(file, sizeof file - 1, 24, 31, 34));
}

/* The header's names for the causes, in the order of their numbers, which count from 11. */
static void test_cause_numbers(void)
{
    static const unsigned causes[] = {
        SINDHOPUL_CAUSE_CALENDAR_LENGTH, SINDHOPUL_CAUSE_CALENDAR_TAIL,
        SINDHOPUL_CAUSE_CALENDAR_MONTH,  SINDHOPUL_CAUSE_REGISTER_LENGTH,
        SINDHOPUL_CAUSE_REGISTER_FORM,   SINDHOPUL_CAUSE_RUNNING,
        SINDHOPUL_CAUSE_EMPTY,           SINDHOPUL_CAUSE_START_DAY,
        SINDHOPUL_CAUSE_SESSION_DAY,     SINDHOPUL_CAUSE_TOO_LATE,
        SINDHOPUL_CAUSE_CLOSE,           SINDHOPUL_CAUSE_ANNOUNCE_MONTH,
        SINDHOPUL_CAUSE_ANNOUNCE_PRICE,  SINDHOPUL_CAUSE_ANNOUNCE_KNOWN,
        SINDHOPUL_CAUSE_ANNOUNCE_FULL,   SINDHOPUL_CAUSE_ROWS_MONTH,
        SINDHOPUL_CAUSE_NAME_LENGTH,     SINDHOPUL_CAUSE_NAME_SERIES,
        SINDHOPUL_CAUSE_NAME_BYTE,       SINDHOPUL_CAUSE_OUTPUT_LENGTH,
        SINDHOPUL_CAUSE_FILE_FORM,
    };
    unsigned i;
    CHECK(SINDHOPUL_ACCEPTED == 0);
    CHECK(sizeof causes / sizeof causes[0] == 21);
    for (i = 0; i < 21; i++)
        CHECK(causes[i] == 11 + i);
}

int main(void)
{
    test_cause_numbers();
    test_names_written();
    test_names_not_written();
    test_names_read();
    test_names_not_read();
    test_calendars_accepted();
    test_calendar_length();
    test_calendar_tail();
    test_calendar_months();
    test_register_listed();
    test_far_close();
    test_rows();
    test_empty_register();
    test_running_register();
    test_announcements_full();
    test_register_refused();
    test_register_without_month();
    test_file_bytes();
    test_file_written();
    test_file_lengths();
    test_file_of_nothing();
    test_file_not_written();
    test_days_read();
    test_files_not_read();
    if (failures > 0) {
        fprintf(stderr, "interface: %d failed\n", failures);
        return 1;
    }
    puts("interface: ok");
    return 0;
}
