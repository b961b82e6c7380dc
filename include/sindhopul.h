/*
 * Sindhopul: the proved register of listed WIG20 options, its C interface, for C11 and C++11 on.
 *
 * Buffers. The caller owns every buffer. The library allocates nothing, keeps no pointer when a
 * call has returned and has no state of its own. A buffer comes as a pointer and its length in
 * bytes, of any alignment; a length of 0 may come with a null pointer. The buffers of one call do
 * not overlap, and while the call runs nobody else writes them. A buffer that is const is only
 * read.
 *
 * Results. Every call is defined for every input. It returns the number of what happened: 0 for
 * an accepted call, otherwise the cause of the refusal. A refused call changes no buffer, and the
 * values beside its number are 0 but for the one that the cause names below. Where several causes
 * hold, the function's own comment says which is told.
 *
 * Days count from 0, 1 January 2000, to 36524, 31 December 2099. Months count from 0, January
 * 2000, to 1199, December 2099. A month expires on its third Friday, or else on the last session
 * day before it. The live months of a day are the first that has not expired before it, the two
 * months after that, and the next three of March, June, September and December.
 */
#ifndef SINDHOPUL_H
#define SINDHOPUL_H

#include <stddef.h>
#include <stdint.h>

#ifdef __cplusplus
extern "C" {
#endif

/* The length of a calendar. Day n has a session when the bit of weight 2^(n mod 8) in byte
 * n div 8 is set; the three bits after day 36524 are 0. */
#define SINDHOPUL_CALENDAR_BYTES 4566

/* The length of a register. All zero it is empty; otherwise it is running, and holds
 *   byte 0         1
 *   byte 1         how many announcements wait
 *   bytes 2, 3     the day of the last start or session
 *   bytes 4, 5     how many rows stand
 *   bytes 6, 7     0
 *   bytes 8 to 135 the announcements in the order received, 4 bytes each: month, price
 *   from byte 136  the rows, ascending by month, then price
 * with 0 in all places that are not used. Numbers of two bytes have the low byte first. */
#define SINDHOPUL_REGISTER_BYTES 11264

/* The length of a row: month, price in whole index points and first day, of two bytes each; the
 * origin; a byte 0. The origin tells what brought the row: 1 its month being new, 2 a finer grid,
 * 3 a close, 4 an announcement, each with the gap up to the ladder that stood, 5 the start. A row
 * is for call and put together. */
#define SINDHOPUL_ROW_BYTES 8

/* How many rows can stand, and how many announcements can wait. */
#define SINDHOPUL_MOST_ROWS 1391
#define SINDHOPUL_MOST_ANNOUNCEMENTS 32

/* The length of a name, as in OW20L262400; no zero byte follows it. */
#define SINDHOPUL_NAME_BYTES 11

/* The length of a series in a file of series, a name and its origin. Such a file is made of fields,
 * each a tag of one byte, the length of its content in two, low byte first, and the content. The
 * first field has tag 1 and holds a day, two bytes, low byte first. Each other has tag 2 and holds
 * a series; each name is above the one before by byte value. */
#define SINDHOPUL_SERIES_BYTES 12

/* The length of the longest file of a register: its day, and a call and a put for each row. */
#define SINDHOPUL_MOST_FILE_BYTES 41735

enum {
    SINDHOPUL_ACCEPTED = 0,
    /* The calendar is not 4566 bytes long. */
    SINDHOPUL_CAUSE_CALENDAR_LENGTH = 11,
    /* A bit after day 36524 is set in the calendar. */
    SINDHOPUL_CAUSE_CALENDAR_TAIL = 12,
    /* A month has no session from its first day to its third Friday, ends included. */
    SINDHOPUL_CAUSE_CALENDAR_MONTH = 13,
    /* The register is not 11264 bytes long. */
    SINDHOPUL_CAUSE_REGISTER_LENGTH = 14,
    /* The register is neither empty nor well formed. Well formed is one of the layout above, its
     * day a session with a first live month up to March 2099, with a ladder for each live month
     * that has no gap on the month's grid, no other row, no first day after its day, no origin
     * but 1 to 5, and no announcement that 20 or 22 to 24 would refuse beside the others. */
    SINDHOPUL_CAUSE_REGISTER_FORM = 15,
    /* The register to start is running. */
    SINDHOPUL_CAUSE_RUNNING = 16,
    /* The register is empty. */
    SINDHOPUL_CAUSE_EMPTY = 17,
    /* The day of the start is above 36524 or has no session. */
    SINDHOPUL_CAUSE_START_DAY = 18,
    /* The day is not the first session day after the register's. */
    SINDHOPUL_CAUSE_SESSION_DAY = 19,
    /* The first live month of the new day would be after March 2099, or that of the next session
     * day for an announcement. */
    SINDHOPUL_CAUSE_TOO_LATE = 20,
    /* The close is below 9000 or above 954999. */
    SINDHOPUL_CAUSE_CLOSE = 21,
    /* The month to announce is not live, or expires on the register's day. */
    SINDHOPUL_CAUSE_ANNOUNCE_MONTH = 22,
    /* The price to announce is not on the grid that its month has on the next session day. */
    SINDHOPUL_CAUSE_ANNOUNCE_PRICE = 23,
    /* The price to announce lies within its month's ladder, or waits already. */
    SINDHOPUL_CAUSE_ANNOUNCE_KNOWN = 24,
    /* 32 announcements wait. */
    SINDHOPUL_CAUSE_ANNOUNCE_FULL = 25,
    /* The month whose rows are wanted is not live. */
    SINDHOPUL_CAUSE_ROWS_MONTH = 26,
    /* The name's buffer is not 11 bytes long. */
    SINDHOPUL_CAUSE_NAME_LENGTH = 27,
    /* The month is above 1199, the type above 1, or the price not on the grid of the nearest
     * expiry: 5 to 475 by 5, 480 to 990 by 10, 1000 to 9975 by 25. */
    SINDHOPUL_CAUSE_NAME_SERIES = 28,
    /* The name has a byte that cannot stand at its place. */
    SINDHOPUL_CAUSE_NAME_BYTE = 29,
    /* The output buffer is too short. */
    SINDHOPUL_CAUSE_OUTPUT_LENGTH = 30,
    /* The bytes are no file of series. The place told counts from 0 and is the lowest that is at
     * fault. In the first field that is not right it is the first byte that cannot stand there,
     * or the number of bytes where they end inside the field. Where all bytes of that field are
     * there and can stand, it is the first byte of its content, whose day is above 36524, whose
     * price is not on the grid under 28, or whose name is not above the one before. Any byte can
     * stand in a day. In a series can stand OW20, a letter A to X, six digits and an origin 1 to
     * 5. */
    SINDHOPUL_CAUSE_FILE_FORM = 31
};

typedef struct {
    uint16_t number;
    uint16_t month; /* with 13: the first month without its session */
} sindhopul_calendar_result;

typedef struct {
    uint16_t number;
    uint16_t added;   /* rows whose first day is the new day; with 13: the month as above */
    uint16_t removed; /* old rows of the month that expired */
    uint16_t rows;    /* rows that stand now */
} sindhopul_listing_result;

typedef struct {
    uint16_t number;
    uint16_t waiting; /* announcements that wait now; with 13: the month as above */
} sindhopul_announce_result;

typedef struct {
    uint16_t number;
    uint16_t at;   /* the byte of the register where the month's rows begin */
    uint16_t size; /* how many bytes they are */
} sindhopul_rows_result;

typedef struct {
    uint16_t number;
    uint16_t month; /* with 29: the first place, 0 to 10, whose byte cannot stand there */
    uint16_t type;  /* 0 call, 1 put */
    uint16_t price; /* whole index points */
} sindhopul_name_result;

typedef struct {
    uint16_t number;
    uint32_t length; /* how many bytes the file has; with 13: the month as above */
} sindhopul_file_write_result;

typedef struct {
    uint16_t number;
    uint32_t day;    /* the file's day; with 31: the place, from 0 */
    uint32_t series; /* how many series the file has */
} sindhopul_file_read_result;

/* The layout that the library was compiled with. */
#ifdef __cplusplus
#define SINDHOPUL_HOLDS(condition, text) static_assert(condition, text)
#else
#define SINDHOPUL_HOLDS(condition, text) _Static_assert(condition, text)
#endif
#define SINDHOPUL_SIZE(type, size) SINDHOPUL_HOLDS(sizeof(type) == (size), #type)
#define SINDHOPUL_PLACE(type, field, place)                                                        \
    SINDHOPUL_HOLDS(offsetof(type, field) == (place), #type "." #field)

SINDHOPUL_SIZE(sindhopul_calendar_result, 4);
SINDHOPUL_PLACE(sindhopul_calendar_result, number, 0);
SINDHOPUL_PLACE(sindhopul_calendar_result, month, 2);

SINDHOPUL_SIZE(sindhopul_listing_result, 8);
SINDHOPUL_PLACE(sindhopul_listing_result, number, 0);
SINDHOPUL_PLACE(sindhopul_listing_result, added, 2);
SINDHOPUL_PLACE(sindhopul_listing_result, removed, 4);
SINDHOPUL_PLACE(sindhopul_listing_result, rows, 6);

SINDHOPUL_SIZE(sindhopul_announce_result, 4);
SINDHOPUL_PLACE(sindhopul_announce_result, number, 0);
SINDHOPUL_PLACE(sindhopul_announce_result, waiting, 2);

SINDHOPUL_SIZE(sindhopul_rows_result, 6);
SINDHOPUL_PLACE(sindhopul_rows_result, number, 0);
SINDHOPUL_PLACE(sindhopul_rows_result, at, 2);
SINDHOPUL_PLACE(sindhopul_rows_result, size, 4);

SINDHOPUL_SIZE(sindhopul_name_result, 8);
SINDHOPUL_PLACE(sindhopul_name_result, number, 0);
SINDHOPUL_PLACE(sindhopul_name_result, month, 2);
SINDHOPUL_PLACE(sindhopul_name_result, type, 4);
SINDHOPUL_PLACE(sindhopul_name_result, price, 6);

SINDHOPUL_SIZE(sindhopul_file_write_result, 8);
SINDHOPUL_PLACE(sindhopul_file_write_result, number, 0);
SINDHOPUL_PLACE(sindhopul_file_write_result, length, 4);

SINDHOPUL_SIZE(sindhopul_file_read_result, 12);
SINDHOPUL_PLACE(sindhopul_file_read_result, number, 0);
SINDHOPUL_PLACE(sindhopul_file_read_result, day, 4);
SINDHOPUL_PLACE(sindhopul_file_read_result, series, 8);

/* The head, the announcements and the rows are all of a register. */
SINDHOPUL_HOLDS(8 + 4 * SINDHOPUL_MOST_ANNOUNCEMENTS + SINDHOPUL_ROW_BYTES * SINDHOPUL_MOST_ROWS
                    == SINDHOPUL_REGISTER_BYTES,
                "the register's parts");

/* A field has three bytes before its content. */
SINDHOPUL_HOLDS(5 + 2 * (3 + SINDHOPUL_SERIES_BYTES) * SINDHOPUL_MOST_ROWS
                    == SINDHOPUL_MOST_FILE_BYTES,
                "the longest file of a register");
SINDHOPUL_HOLDS(SINDHOPUL_NAME_BYTES + 1 == SINDHOPUL_SERIES_BYTES, "a name and its origin");

#undef SINDHOPUL_PLACE
#undef SINDHOPUL_SIZE
#undef SINDHOPUL_HOLDS

/* Checks a calendar. Numbers: 0, or the first that holds of 11, 12 and 13. */
sindhopul_calendar_result sindhopul_calendar_check(const uint8_t *calendar, size_t calendar_length);

/* Starts an empty register on a session day. The close is that before the day, in hundredths of
 * an index point. Numbers: 0, or the first that holds of 11 to 16, 18, 20 and 21. */
sindhopul_listing_result sindhopul_start(const uint8_t *calendar, size_t calendar_length,
                                         uint8_t *register_bytes, size_t register_length,
                                         uint32_t day, uint32_t close);

/* Moves a register on to the next session day: drops the month that expired, lists what the
 * close before that day requires and what was announced, and clears the announcements. Numbers:
 * 0, or the first that holds of 11 to 15, 17 and 19 to 21. */
sindhopul_listing_result sindhopul_session(const uint8_t *calendar, size_t calendar_length,
                                           uint8_t *register_bytes, size_t register_length,
                                           uint32_t day, uint32_t close);

/* Announces a price of a month, in whole index points, for the next session. Numbers: 0, or the
 * first that holds of 11 to 15, 17, 20 and 22 to 25. */
sindhopul_announce_result sindhopul_announce(const uint8_t *calendar, size_t calendar_length,
                                             uint8_t *register_bytes, size_t register_length,
                                             uint32_t month, uint32_t price);

/* Tells where in a register a month's rows stand. Beside a refusal, 13 too, both values are 0.
 * Numbers: 0, or the first that holds of 11 to 15, 17 and 26. */
sindhopul_rows_result sindhopul_rows(const uint8_t *calendar, size_t calendar_length,
                                     const uint8_t *register_bytes, size_t register_length,
                                     uint32_t month);

/* Writes the name of a series into 11 bytes. Type 0 is a call, 1 a put. Numbers: 0, or the first
 * that holds of 27 and 28. */
uint16_t sindhopul_name_write(uint8_t *name, size_t name_length, uint32_t month, uint32_t type,
                              uint32_t price);

/* Reads the series of a name. Numbers: 0, or the first that holds of 27, 29 and 28: a name is
 * first of all of the form OW20, a letter A to X, six digits. */
sindhopul_name_result sindhopul_name_read(const uint8_t *name, size_t name_length);

/* Writes the file of a register's new series: the register's day, and call and put of each row
 * whose first day it is. A buffer of exactly the file's length is long enough; one of
 * SINDHOPUL_MOST_FILE_BYTES always is. Bytes behind the file stay as they were. Numbers: 0, or
 * the first that holds of 11 to 15, 17 and 30. */
sindhopul_file_write_result sindhopul_file_write(const uint8_t *calendar, size_t calendar_length,
                                                 const uint8_t *register_bytes,
                                                 size_t register_length, uint8_t *file,
                                                 size_t file_length);

/* Reads a file of series: its day, which need not be a session, how many series it names, and in
 * the buffer the series in their order, SINDHOPUL_SERIES_BYTES each. Bytes behind them stay as
 * they were. A buffer as long as the file always is long enough. Numbers: 0, or the first that
 * holds of 31 and 30. */
sindhopul_file_read_result sindhopul_file_read(const uint8_t *file, size_t file_length,
                                               uint8_t *series, size_t series_length);

#ifdef __cplusplus
}
#endif

#endif
