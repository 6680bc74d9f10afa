/* Turns a roster into grant announcements, and announcements into a roster.
 *
 * Usage: roster read CYCLE DAY < ROSTER > ANNOUNCEMENTS
 *        roster write < ANNOUNCEMENTS > ROSTER
 *
 * CYCLE is that of the first line, DAY a count of days from 1970-01-01. Exit status: 0 all is written, 1
 * the input is refused and nothing is written (`records roster` says which line and field), 2 wrong use,
 * or input or output that fails.
 */
#include "access_node.h"

#include <errno.h>
#include <stdio.h>
#include <string.h>

enum {
    REFUSED = 1,
    WRONG_USE = 2,
    LINES = ACCESS_NODE_ROSTER_MOST_LINES,
    SIZE = ACCESS_NODE_ANNOUNCEMENT_SIZE,
    LONGEST_LINE = 34, /* ten digits, a date, four digits, two quotes for each, two commas, CR LF */
    MOST = LINES * LONGEST_LINE
};

static int refuse(int status, const char *what) {
    fprintf(stderr, "roster: %s\n", what);
    return status;
}

/* A number in decimal digits that fits 32 bits. */
static int read_number(const char *text, uint32_t *number) {
    uint64_t sum = 0;
    if (*text == '\0')
        return 0;
    for (; *text != '\0'; text++) {
        if (*text < '0' || *text > '9')
            return 0;
        sum = 10 * sum + (uint64_t)(*text - '0');
        if (sum > UINT32_MAX)
            return 0;
    }
    *number = (uint32_t)sum;
    return 1;
}

static int put(const uint8_t *bytes, size_t length) {
    if (fwrite(bytes, 1, length, stdout) != length || fflush(stdout) != 0)
        return refuse(WRONG_USE, strerror(errno));
    return 0;
}

static int read_roster(const uint8_t *roster, size_t length, uint32_t cycle, uint32_t day) {
    static uint8_t announcements[LINES * SIZE];
    uint32_t returned =
        node_roster_import(roster, length, cycle, day, announcements, sizeof announcements);
    if (ACCESS_NODE_ANSWER(returned) != ACCESS_NODE_OK)
        return refuse(REFUSED, "the roster is malformed or too long, or its cycles run out");
    return put(announcements, SIZE * (size_t)ACCESS_NODE_COUNT(returned));
}

/* All lines are made before the first is written. */
static int write_roster(const uint8_t *announcements, size_t length) {
    static uint8_t lines[LINES * ACCESS_NODE_ROSTER_LINE_SIZE];
    size_t end = 0;
    if (length > LINES * SIZE)
        return refuse(REFUSED, "more than 64 announcements");
    for (size_t at = 0; at < length; at += SIZE) {
        size_t size = length - at; /* the last one may be cut, and is refused */
        if (size > SIZE)
            size = SIZE;
        uint32_t returned =
            node_roster_export(announcements + at, size, lines + end, sizeof lines - end);
        if (ACCESS_NODE_ANSWER(returned) != ACCESS_NODE_OK) {
            fprintf(stderr, "roster: announcement %zu is no grant that ends by 2099-12-31\n",
                    at / SIZE + 1);
            return REFUSED;
        }
        end += ACCESS_NODE_COUNT(returned);
    }
    return put(lines, end);
}

int main(int words, char **word) {
    /* One byte more than any well-formed input has, so that a longer one is refused. */
    static uint8_t input[MOST + 1];
    uint32_t cycle = 0, day = 0;
    int reads = words == 4 && strcmp(word[1], "read") == 0;
    int writes = words == 2 && strcmp(word[1], "write") == 0;
    if (!reads && !writes)
        return refuse(WRONG_USE, "usage: roster read CYCLE DAY < ROSTER, roster write < ANNOUNCEMENTS");
    if (reads && (!read_number(word[2], &cycle) || !read_number(word[3], &day)))
        return refuse(WRONG_USE, "cycle and day are numbers from 0 to 4294967295");
    size_t length = fread(input, 1, sizeof input, stdin);
    if (ferror(stdin))
        return refuse(WRONG_USE, strerror(errno));
    return reads ? read_roster(input, length, cycle, day) : write_roster(input, length);
}
