/*
 * What the examples share: a map read from its file, a number read from an argument, and the statuses.
 */
#ifndef MAP_H
#define MAP_H

#include <ctype.h>
#include <errno.h>
#include <stdio.h>
#include <stdlib.h>
#include <string.h>
#include "yard.h"

/* The longest map, and a byte more, so that a longer file is refused by its length. */
#define MAP_ROOM (YARD_MAX_IMAGE_BYTES + 1)

enum status { STATUS_DONE = 0, STATUS_REFUSED = 1, STATUS_USAGE = 2, STATUS_NO_ROUTE = 3 };

/*
 * A number of decimal digits and nothing else (strtoul alone would take a sign and spaces too). Inline, as it may go
 * unused: order has no numbers.
 */
static inline int read_number(const char *text, uint16_t *number)
{
    char *end;
    unsigned long value;

    if (!isdigit((unsigned char)text[0]))
        return 0;
    errno = 0;
    value = strtoul(text, &end, 10);
    if (errno != 0 || *end != '\0' || value > 65535)
        return 0;
    *number = (uint16_t)value;
    return 1;
}

/* Says on standard error what went wrong with a file. */
static int file_failed(const char *path)
{
    fprintf(stderr, "%s: %s\n", path, strerror(errno));
    return 0;
}

/* The file's bytes, MAP_ROOM of them at most; 0 if it cannot be read. */
static int read_map(const char *path, uint8_t *image, size_t *image_len)
{
    FILE *map = fopen(path, "rb");
    int read;

    if (map == NULL)
        return file_failed(path);
    *image_len = fread(image, 1, MAP_ROOM, map);
    read = !ferror(map) || file_failed(path);
    fclose(map);
    return read;
}

#endif
