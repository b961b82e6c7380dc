/* The table of conformance cases over the C interface. What its lines mean stands at its head.
 * usage: conformance cases.txt */
#include "sindhopul.h"

#include <stdarg.h>
#include <stdio.h>
#include <stdlib.h>
#include <string.h>

enum { LONGEST_LINE = 200, MOST_WORDS = 4, MOST_BYTES = SINDHOPUL_MOST_FILE_BYTES };

enum { GUARD = 16, GUARD_BYTE = 0xa5 };

typedef struct {
    uint8_t bytes[MOST_BYTES];
    size_t length;
} buffer;

/* The calendar, the register and the file of the run. */
static buffer calendar, listed, file;

static unsigned line_number;

static void fail(const char *what, const char *more)
{
    fprintf(stderr, "conformance: line %u: %s%s\n", line_number, what, more);
    exit(1);
}

static uint32_t number(const char *word)
{
    char *end;
    unsigned long value = strtoul(word, &end, 10);
    if (end == word || *end != '\0' || value > UINT32_MAX) {
        fail("not a number: ", word);
    }
    return (uint32_t)value;
}

static size_t number_below(const char *word, size_t limit)
{
    uint32_t value = number(word);
    if (value >= limit) {
        fail("too high: ", word);
    }
    return value;
}

/* The CRC-32 of zip and png, of one byte more. */
static uint32_t crc_step(uint32_t crc, uint8_t byte)
{
    int bit;
    crc ^= byte;
    for (bit = 0; bit < 8; bit++) {
        crc = (crc >> 1) ^ (UINT32_C(0xedb88320) & (0 - (crc & 1)));
    }
    return crc;
}

static uint32_t crc_of(const uint8_t *bytes, size_t length)
{
    uint32_t crc = UINT32_MAX;
    size_t place;
    for (place = 0; place < length; place++) {
        crc = crc_step(crc, bytes[place]);
    }
    return ~crc;
}

/* Making bytes */

static void set_length(buffer *made, size_t length)
{
    if (length > made->length) {
        memset(made->bytes + made->length, 0, length - made->length);
    }
    made->length = length;
}

static void set_days(uint32_t first, size_t last, int open)
{
    size_t day;
    for (day = first; day <= last; day++) {
        uint8_t bit = (uint8_t)(1u << (day % 8));
        uint8_t *byte = &calendar.bytes[day / 8];
        *byte = (uint8_t)(open ? *byte | bit : *byte & ~bit);
    }
}

static void make_calendar(char **words, int count)
{
    size_t day, days = 8 * calendar.length;
    int weekdays = strcmp(words[1], "weekdays") == 0;
    if (count == 2 && (weekdays || strcmp(words[1], "every-day") == 0)) {
        calendar.length = 0;
        set_length(&calendar, SINDHOPUL_CALENDAR_BYTES);
        for (day = 0; day <= 36524; day++) {
            set_days((uint32_t)day, day, !weekdays || day % 7 >= 2);
        }
    } else if (count == 4 && strcmp(words[1], "open") == 0) {
        set_days(number(words[2]), number_below(words[3], days), 1);
    } else if (count == 4 && strcmp(words[1], "closed") == 0) {
        set_days(number(words[2]), number_below(words[3], days), 0);
    } else if (count == 3 && strcmp(words[1], "length") == 0) {
        set_length(&calendar, number_below(words[2], MOST_BYTES + 1));
    } else {
        fail("there is no such line", "");
    }
}

static void set_byte(buffer *made, const char *place, const char *value)
{
    made->bytes[number_below(place, made->length)] = (uint8_t)number_below(value, 256);
}

static void make_register(char **words, int count)
{
    if (count == 2 && strcmp(words[1], "empty") == 0) {
        listed.length = 0;
        set_length(&listed, SINDHOPUL_REGISTER_BYTES);
    } else if (count == 3 && strcmp(words[1], "length") == 0) {
        set_length(&listed, number_below(words[2], MOST_BYTES + 1));
    } else if (count == 4 && strcmp(words[1], "byte") == 0) {
        set_byte(&listed, words[2], words[3]);
    } else {
        fail("there is no such line", "");
    }
}

/* Adds a field at the end of the file: tag, length and content. */
static void add_field(uint8_t tag, const void *content, uint8_t length)
{
    uint8_t head[3] = {tag, length, 0};
    if (file.length + sizeof head + length > MOST_BYTES) {
        fail("the file is too long", "");
    }
    memcpy(file.bytes + file.length, head, sizeof head);
    memcpy(file.bytes + file.length + sizeof head, content, length);
    file.length += sizeof head + length;
}

static void make_file(char **words, int count)
{
    if (count == 3 && strcmp(words[1], "day") == 0) {
        size_t day = number_below(words[2], 65536);
        uint8_t content[2] = {(uint8_t)(day % 256), (uint8_t)(day / 256)};
        file.length = 0;
        add_field(1, content, sizeof content);
    } else if (count == 4 && strcmp(words[1], "series") == 0) {
        uint8_t content[SINDHOPUL_SERIES_BYTES];
        if (strlen(words[2]) != SINDHOPUL_NAME_BYTES) {
            fail("not as long as a name: ", words[2]);
        }
        memcpy(content, words[2], SINDHOPUL_NAME_BYTES);
        content[SINDHOPUL_NAME_BYTES] = (uint8_t)number_below(words[3], 256);
        add_field(2, content, sizeof content);
    } else if (count == 3 && strcmp(words[1], "length") == 0) {
        set_length(&file, number_below(words[2], MOST_BYTES + 1));
    } else if (count == 4 && strcmp(words[1], "byte") == 0) {
        set_byte(&file, words[2], words[3]);
    } else {
        fail("there is no such line", "");
    }
}

/* Calls. Each writes its answer as the table has it. */

static char answer[LONGEST_LINE];

static void tell(const char *format, ...)
{
    va_list values;
    va_start(values, format);
    vsnprintf(answer, sizeof answer, format, values);
    va_end(values);
}

/* A refusal with the value that its cause names. The others are 0; where not, they are told, which
 * the table never does. */
static void tell_refusal(unsigned cause, unsigned value, unsigned second, unsigned third)
{
    if (second != 0 || third != 0) {
        tell("%u %u %u %u", cause, value, second, third);
    } else if (value != 0 || cause == SINDHOPUL_CAUSE_CALENDAR_MONTH
               || cause == SINDHOPUL_CAUSE_NAME_BYTE || cause == SINDHOPUL_CAUSE_FILE_FORM) {
        tell("%u %u", cause, value);
    } else {
        tell("%u", cause);
    }
}

static void tell_listing(sindhopul_listing_result got)
{
    if (got.number != 0) {
        tell_refusal(got.number, got.added, got.removed, got.rows);
    } else {
        tell("0 %u %u %u %08lx", got.added, got.removed, got.rows,
             (unsigned long)crc_of(listed.bytes, listed.length));
    }
}

static void check(void)
{
    sindhopul_calendar_result got = sindhopul_calendar_check(calendar.bytes, calendar.length);
    if (got.number != 0) {
        tell_refusal(got.number, got.month, 0, 0);
    } else {
        tell("0");
    }
}

static void announce(uint32_t month, uint32_t price)
{
    sindhopul_announce_result got = sindhopul_announce(
        calendar.bytes, calendar.length, listed.bytes, listed.length, month, price);
    if (got.number != 0) {
        tell_refusal(got.number, got.waiting, 0, 0);
    } else {
        tell("0 %u %08lx", got.waiting, (unsigned long)crc_of(listed.bytes, listed.length));
    }
}

static unsigned pair(const uint8_t *bytes)
{
    return bytes[0] + 256u * bytes[1];
}

static void tell_rows(const uint8_t *rows, size_t size)
{
    unsigned origins[6] = {0};
    uint32_t crc = UINT32_MAX;
    const uint8_t *row, *last = rows + size - SINDHOPUL_ROW_BYTES;
    for (row = rows; row <= last; row += SINDHOPUL_ROW_BYTES) {
        char line[LONGEST_LINE];
        const char *letter;
        unsigned origin = row[6];
        if (origin < 1 || origin > 5) {
            fail("a row of another origin", "");
        }
        origins[origin]++;
        snprintf(line, sizeof line, "%u %u %u %u\n", pair(row), pair(row + 2), pair(row + 4),
                 origin);
        for (letter = line; *letter != '\0'; letter++) {
            crc = crc_step(crc, (uint8_t)*letter);
        }
    }
    tell("0 %u %u %u %u,%u,%u,%u,%u %08lx", (unsigned)(size / SINDHOPUL_ROW_BYTES),
         pair(rows + 2), pair(last + 2), origins[1], origins[2], origins[3], origins[4],
         origins[5], (unsigned long)(uint32_t)~crc);
}

static void rows(uint32_t month)
{
    sindhopul_rows_result got = sindhopul_rows(calendar.bytes, calendar.length, listed.bytes,
                                               listed.length, month);
    if (got.number != 0) {
        /* Here the table has no month behind 13. */
        tell(got.at == 0 && got.size == 0 ? "%u" : "%u %u %u", got.number, got.at, got.size);
    } else if (got.size == 0 || (size_t)got.at + got.size > listed.length) {
        fail("rows that are not in the register", "");
    } else {
        tell_rows(listed.bytes + got.at, got.size);
    }
}

static void write_name(uint32_t month, const char *type, uint32_t price)
{
    char name[SINDHOPUL_NAME_BYTES + 1] = "";
    unsigned cause = sindhopul_name_write((uint8_t *)name, SINDHOPUL_NAME_BYTES, month,
                                          strcmp(type, "put") == 0, price);
    if (cause != 0) {
        tell("%u%s", cause, name);
    } else {
        tell("0 %s", name);
    }
}

static void read_name(const char *name)
{
    sindhopul_name_result got = sindhopul_name_read((const uint8_t *)name, strlen(name));
    if (got.number != 0) {
        tell_refusal(got.number, got.month, got.type, got.price);
    } else {
        tell("0 %u %s %u", got.month, got.type == 0 ? "call" : "put", got.price);
    }
}

/* A buffer for a call to write into, and the guard bytes around it. */
static uint8_t room[GUARD + MOST_BYTES + GUARD];

static uint8_t *made_room(void)
{
    memset(room, GUARD_BYTE, sizeof room);
    return room + GUARD;
}

/* Every byte but so many of the buffer must be as it was. */
static void expect_written(size_t length)
{
    size_t place;
    for (place = 0; place < sizeof room; place++) {
        if ((place < GUARD || place >= GUARD + length) && room[place] != GUARD_BYTE) {
            fail("another byte of the buffer has changed", "");
        }
    }
}

static void write_file(size_t length)
{
    uint8_t *written = made_room();
    sindhopul_file_write_result got = sindhopul_file_write(
        calendar.bytes, calendar.length, listed.bytes, listed.length, written, length);
    if (got.number != 0) {
        expect_written(0);
        tell_refusal(got.number, got.length, 0, 0);
    } else if (got.length > length) {
        fail("a file that is longer than its buffer", "");
    } else {
        expect_written(got.length);
        memcpy(file.bytes, written, got.length);
        file.length = got.length;
        tell("0 %lu %08lx", (unsigned long)got.length,
             (unsigned long)crc_of(file.bytes, file.length));
    }
}

static void read_file(size_t length)
{
    uint8_t *series = made_room();
    sindhopul_file_read_result got = sindhopul_file_read(file.bytes, file.length, series, length);
    if (got.number != 0) {
        expect_written(0);
        tell_refusal(got.number, got.day, got.series, 0);
    } else if (got.series > length / SINDHOPUL_SERIES_BYTES) {
        fail("a list that is longer than its buffer", "");
    } else {
        size_t size = (size_t)got.series * SINDHOPUL_SERIES_BYTES;
        expect_written(size);
        tell("0 %lu %lu %08lx", (unsigned long)got.day, (unsigned long)got.series,
             (unsigned long)crc_of(series, size));
    }
}

static void call(char **words, int count)
{
    if (count == 1 && strcmp(words[0], "check") == 0) {
        check();
    } else if (count == 3 && strcmp(words[0], "start") == 0) {
        tell_listing(sindhopul_start(calendar.bytes, calendar.length, listed.bytes, listed.length,
                                     number(words[1]), number(words[2])));
    } else if (count == 3 && strcmp(words[0], "session") == 0) {
        tell_listing(sindhopul_session(calendar.bytes, calendar.length, listed.bytes,
                                       listed.length, number(words[1]), number(words[2])));
    } else if (count == 3 && strcmp(words[0], "announce") == 0) {
        announce(number(words[1]), number(words[2]));
    } else if (count == 2 && strcmp(words[0], "rows") == 0) {
        rows(number(words[1]));
    } else if (count == 4 && strcmp(words[0], "write") == 0) {
        write_name(number(words[1]), words[2], number(words[3]));
    } else if (count <= 2 && strcmp(words[0], "read") == 0) {
        read_name(count == 2 ? words[1] : "");
    } else if (count == 2 && strcmp(words[0], "file_write") == 0) {
        write_file(number_below(words[1], MOST_BYTES + 1));
    } else if (count == 2 && strcmp(words[0], "file_read") == 0) {
        read_file(number_below(words[1], MOST_BYTES + 1));
    } else {
        fail("there is no such line", "");
    }
}

static int changes_register(const char *name)
{
    return strcmp(name, "start") == 0 || strcmp(name, "session") == 0
           || strcmp(name, "announce") == 0;
}

/* Makes a call, and compares all that it did. */
static void compare(char **words, int count, const char *wanted)
{
    buffer calendar_before = calendar, listed_before = listed, file_before = file;
    int accepted;
    call(words, count);
    accepted = strncmp(answer, "0 ", 2) == 0;
    if (strcmp(answer, wanted) != 0) {
        fprintf(stderr, "conformance: line %u: wanted %s, got %s\n", line_number, wanted, answer);
        exit(1);
    }
    if (memcmp(&calendar, &calendar_before, sizeof calendar) != 0) {
        fail("the calendar has changed", "");
    }
    if (!(accepted && changes_register(words[0]))
        && memcmp(&listed, &listed_before, sizeof listed) != 0) {
        fail("the register has changed", "");
    }
    if (!(accepted && strcmp(words[0], "file_write") == 0)
        && memcmp(&file, &file_before, sizeof file) != 0) {
        fail("the file has changed", "");
    }
}

int main(int argument_count, char **arguments)
{
    char line[LONGEST_LINE];
    unsigned calls = 0, wanted_calls = 0;
    FILE *table = argument_count == 2 ? fopen(arguments[1], "r") : NULL;
    if (table == NULL) {
        fputs("usage: conformance cases.txt\n", stderr);
        return 2;
    }
    while (fgets(line, sizeof line, table) != NULL) {
        char *words[MOST_WORDS], *word, *wanted;
        int count = 0;
        line_number++;
        line[strcspn(line, "\n")] = '\0';
        if (line[0] == '\0' || line[0] == '#') {
            continue;
        }
        wanted = strstr(line, " = ");
        if (wanted != NULL) {
            *wanted = '\0';
            wanted += 3;
        }
        for (word = strtok(line, " "); word != NULL; word = strtok(NULL, " ")) {
            if (count == MOST_WORDS) {
                fail("too many words", "");
            }
            words[count++] = word;
        }
        if (count >= 2 && strcmp(words[0], "calendar") == 0) {
            make_calendar(words, count);
        } else if (count >= 2 && strcmp(words[0], "register") == 0) {
            make_register(words, count);
        } else if (count >= 2 && strcmp(words[0], "file") == 0) {
            make_file(words, count);
        } else if (count == 2 && strcmp(words[0], "calls") == 0) {
            wanted_calls = number(words[1]);
        } else {
            compare(words, count, wanted != NULL ? wanted : "an answer");
            calls++;
        }
    }
    fclose(table);
    if (calls == 0 || calls != wanted_calls) {
        fprintf(stderr, "conformance: %u calls, the table tells of %u\n", calls, wanted_calls);
        return 1;
    }
    printf("conformance: %u calls\n", calls);
    return 0;
}
