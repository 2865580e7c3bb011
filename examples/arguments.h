/*
 * What the examples way and panel share: the arguments MAP SOURCE STATION [LENGTH], read with the map itself.
 */
#ifndef ARGUMENTS_H
#define ARGUMENTS_H

#include "map.h"

/* Without a length it is 0, for which every move is used. */
struct arguments {
    uint8_t image[MAP_ROOM];
    size_t image_len;
    uint16_t source, station, length;
};

/* Reads what follows the program's name; 0 if that is not as it should be, which is then said on standard error. */
static int read_arguments(const char *program, int argc, char **argv, struct arguments *arguments)
{
    arguments->length = 0;
    if (argc < 4 || argc > 5 || !read_number(argv[2], &arguments->source) || !read_number(argv[3], &arguments->station)
        || (argc == 5 && !read_number(argv[4], &arguments->length))) {
        fprintf(stderr, "usage: %s MAP SOURCE STATION [LENGTH], stations and the strip's length in decimetres "
                        "as whole numbers from 0 to 65535\n", program);
        return 0;
    }
    return read_map(argv[1], arguments->image, &arguments->image_len);
}

#endif
