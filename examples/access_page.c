/* Prints the access page of a node's image for a day: the login list as the crew room reads it.
 *
 * Usage: access_page IMAGE DAY
 *
 * IMAGE is a file with the image that a hub keeps, DAY a count of days from 1970-01-01. Exit status:
 * 0 the page is printed (an empty list has an empty page), 1 the file is no image, 2 wrong use, or a
 * file that can't be read or written.
 */
#include "access_node.h"

#include <errno.h>
#include <stdio.h>
#include <stdlib.h>
#include <string.h>

enum { NO_IMAGE = 1, WRONG_USE = 2 };

/* Says what is wrong, with what was given, and ends. */
static int refuse(int status, const char *what, const char *given) {
    fprintf(stderr, "access_page: %s: %s\n", given, what);
    return status;
}

/* Reads the file up to one byte more than an image has, so that a longer file is told from an image.
 * Answers the number of bytes, or a number that no image has, with errno, where it can't be read. */
static size_t read_file(const char *path, uint8_t *bytes, size_t size) {
    FILE *file = fopen(path, "rb");
    if (file == NULL)
        return SIZE_MAX;
    errno = 0;
    size_t got = fread(bytes, 1, size, file);
    int failed = ferror(file);
    fclose(file);
    return failed ? SIZE_MAX : got;
}

/* A count of days in decimal digits, that fits 32 bits. */
static int read_day(const char *text, uint32_t *day) {
    uint64_t number = 0;
    if (*text == '\0')
        return 0;
    for (; *text != '\0'; text++) {
        if (*text < '0' || *text > '9')
            return 0;
        number = 10 * number + (uint64_t)(*text - '0');
        if (number > UINT32_MAX)
            return 0;
    }
    *day = (uint32_t)number;
    return 1;
}

int main(int words, char **word) {
    static uint8_t image[ACCESS_NODE_IMAGE_SIZE + 1];
    static uint8_t page[ACCESS_NODE_PAGE_SIZE(ACCESS_NODE_MOST_LOGINS)];
    uint32_t day;
    if (words != 3) {
        fprintf(stderr, "usage: access_page IMAGE DAY\n");
        return WRONG_USE;
    }
    if (!read_day(word[2], &day))
        return refuse(WRONG_USE, "the day is not a count from 1970-01-01, 0 to 4294967295",
                      word[2]);
    size_t length = read_file(word[1], image, sizeof image);
    if (length == SIZE_MAX)
        return refuse(WRONG_USE, strerror(errno), word[1]);
    if (length != ACCESS_NODE_IMAGE_SIZE)
        return refuse(NO_IMAGE, "the file is no image, which has 1,144 bytes", word[1]);
    uint32_t returned = node_page(image, length, day, page, sizeof page);
    if (ACCESS_NODE_ANSWER(returned) != ACCESS_NODE_OK)
        return refuse(NO_IMAGE, "the file is no well-formed image; `records show --image` says why",
                      word[1]);
    size_t size = ACCESS_NODE_PAGE_SIZE((size_t)ACCESS_NODE_COUNT(returned));
    if (fwrite(page, 1, size, stdout) != size || fflush(stdout) != 0)
        return refuse(WRONG_USE, strerror(errno), "standard output");
    return 0;
}
