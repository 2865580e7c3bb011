/*
 * A map drawn anew from its records, as a planning tool does it: redraw MAP OUT [FROM TARGET TIME [LIMIT]]
 * With FROM, TARGET and TIME (in tenths of a second) it draws that move too, in place of one that leads from FROM to
 * TARGET already; with LIMIT, other than 0, the move takes strips of up to so many decimetres.
 * Prints the number of moves written to the file OUT; or the refusal, and then OUT is left as it is.
 * Ends with status 0 if the map was written, 1 if reading or writing was refused, and 2 if the arguments are not a file
 * that can be read, one that can be written and none, three or four whole numbers from 0 to 65,535.
 */
#include <stdio.h>
#include "map.h"
#include "refusal.h"
#include "yard.h"

/* The arguments: both files, and the move that is drawn too, if there is one. */
struct drawing {
    const char *map, *out;
    int has_move;
    struct yard_record move;
};

static uint8_t image[MAP_ROOM];
static size_t image_len;

/* A copy: what yard_write reads must not lie in the image that it writes. */
static uint8_t directory[YARD_MAX_STATIONS];

/* One more than a map can have: the move that is drawn too may be one too many, which yard_write refuses. */
static struct yard_record records[YARD_MAX_RECORDS + 1];

static int read_drawing(int argc, char **argv, struct drawing *drawing)
{
    struct yard_record *move = &drawing->move;

    drawing->has_move = argc > 3;
    move->limit = 0;
    if ((argc != 3 && argc != 6 && argc != 7)
        || (argc > 3 && !(read_number(argv[3], &move->from) && read_number(argv[4], &move->target)
                          && read_number(argv[5], &move->time)))
        || (argc == 7 && !read_number(argv[6], &move->limit))) {
        fprintf(stderr, "usage: redraw MAP OUT [FROM TARGET TIME [LIMIT]], stations, the move's time in tenths of a "
                        "second and its limit in decimetres as whole numbers from 0 to 65535\n");
        return 0;
    }
    drawing->map = argv[1];
    drawing->out = argv[2];
    return read_map(drawing->map, image, &image_len);
}

/* Whether a record comes before another: by from, and for equal from by target. */
static int is_below(const struct yard_record *one, const struct yard_record *other)
{
    return one->from < other->from || (one->from == other->from && one->target < other->target);
}

/* Puts the move in its place among so many records, and hands back how many there are then. */
static size_t draw_move(const struct yard_record *move, size_t count)
{
    size_t at = 0;

    while (at < count && is_below(&records[at], move))
        at++;
    if (at == count || is_below(move, &records[at])) {
        memmove(&records[at + 1], &records[at], (count - at) * sizeof records[0]);
        count++;
    }
    records[at] = *move;
    return count;
}

/* Writes the image to the file; 0 if that fails, also where the system says so only at the end. */
static int save_image(const char *path)
{
    FILE *out = fopen(path, "wb");
    int written;

    if (out == NULL)
        return file_failed(path);
    written = fwrite(image, 1, image_len, out) == image_len || file_failed(path);
    if (fclose(out) != 0 && written)
        written = file_failed(path);
    return written;
}

/* Reads the records of the map, draws the move, and writes the image of the records with the map's own directory. */
static enum status redraw(const struct drawing *drawing)
{
    uint32_t answer[4], refusal = yard_records(image, image_len, records, YARD_MAX_RECORDS, answer, 4);
    size_t count, stations = yard_stations(image, image_len), pages = yard_pages(image, image_len);

    if (refusal != YARD_ACCEPTED)
        return refused("reading", refusal, answer);
    count = answer[0];
    if (drawing->has_move)
        count = draw_move(&drawing->move, count);
    memcpy(directory, image + YARD_HEADING_BYTES, stations);
    refusal = yard_write(records, count, (uint16_t)stations, (uint16_t)pages, directory, stations,
                         image, yard_image_bytes(stations, pages), answer, 4);
    if (refusal != YARD_ACCEPTED)
        return refused("writing", refusal, answer);
    if (!save_image(drawing->out))
        return STATUS_USAGE;
    printf("%u move%s written to %s\n", (unsigned)count, count == 1 ? "" : "s", drawing->out);
    return STATUS_DONE;
}

int main(int argc, char **argv)
{
    struct drawing drawing;

    return read_drawing(argc, argv, &drawing) ? redraw(&drawing) : STATUS_USAGE;
}
