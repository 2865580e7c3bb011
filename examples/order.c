/*
 * Which of two maps comes first, as a planner files drafts: order FIRST SECOND
 * Maps are in order by their number of stations, then by their moves; the pages they are drawn on have no part in it.
 * Prints which file's map comes before the other's, or that they are equal; or the file that is refused, and why.
 * Ends with status 0 if the maps are in order, 1 if one is refused, and 2 if the arguments are not two files that can
 * be read.
 */
#include <stdio.h>
#include "map.h"
#include "refusal.h"
#include "yard.h"

/* A map's file and its bytes. */
struct file {
    const char *path;
    uint8_t image[MAP_ROOM];
    size_t image_len;
};

static struct file first, second;

static int read_file(const char *path, struct file *file)
{
    file->path = path;
    return read_map(path, file->image, &file->image_len);
}

static int read_files(int argc, char **argv)
{
    if (argc != 3) {
        fprintf(stderr, "usage: order FIRST SECOND, two files with maps\n");
        return 0;
    }
    return read_file(argv[1], &first) && read_file(argv[2], &second);
}

static enum status name_lesser(void)
{
    uint32_t answer[4], refusal = yard_order(first.image, first.image_len, second.image, second.image_len, answer, 4);

    if (refusal != YARD_ACCEPTED)
        return refused(answer[1] == YARD_FIRST ? first.path : second.path, refusal, answer);
    switch (answer[0]) {
    case YARD_FIRST:
        printf("%s comes before %s\n", first.path, second.path);
        break;
    case YARD_SECOND:
        printf("%s comes before %s\n", second.path, first.path);
        break;
    default:
        printf("%s and %s are equal: as many stations and the same moves\n", first.path, second.path);
    }
    return STATUS_DONE;
}

int main(int argc, char **argv)
{
    return read_files(argc, argv) ? name_lesser() : STATUS_USAGE;
}
