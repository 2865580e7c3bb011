/*
 * How many pages a store reads for one search, as commissioning sizes its frames: replay MAP SOURCE [LENGTH]
 * Searches from the source for a strip of a length in decimetres, by Dijkstra's search and by ours; without a length,
 * or with 0, every move is used. Each page list is then replayed with 1, 2, 4 frames and so on, up to YARD_MAX_FRAMES
 * or until there is one for every page; the least recently used page leaves.
 * Prints the references of both lists and, for each number of frames, the reads; or the refusal.
 * Ends with status 0 if the lists were replayed, 1 if a search was refused, and 2 if the arguments are not a file that
 * can be read and one or two whole numbers from 0 to 65,535.
 */
#include <stdio.h>
#include "map.h"
#include "refusal.h"
#include "yard.h"

/* A search of yard.h. */
typedef uint32_t search(const uint8_t *image, size_t image_len, uint16_t source, uint16_t length,
                        uint32_t *times, size_t times_len, uint16_t *moves, size_t moves_len,
                        uint16_t *preds, size_t preds_len, uint8_t *marks, size_t marks_len,
                        uint8_t *list, size_t list_len, uint32_t *answer, size_t answer_len);

/* A page list that a search recorded. */
struct recorded {
    uint8_t list[YARD_MAX_STATIONS];
    size_t list_len;
};

static uint8_t image[MAP_ROOM], marks[YARD_MAX_STATIONS];
static size_t image_len;
static uint16_t source, length, moves[YARD_MAX_STATIONS], preds[YARD_MAX_STATIONS];
static uint32_t times[YARD_MAX_STATIONS];
static struct recorded dijkstras, ours;

/* No page is far from another: all distances are 0, and so is the threshold. */
static const uint32_t distances[YARD_MAX_PAGES * YARD_MAX_PAGES];

static int read_arguments(int argc, char **argv)
{
    if (argc < 3 || argc > 4 || !read_number(argv[2], &source) || (argc == 4 && !read_number(argv[3], &length))) {
        fprintf(stderr, "usage: replay MAP SOURCE [LENGTH], the station and the strip's length in decimetres as whole "
                        "numbers from 0 to 65535\n");
        return 0;
    }
    return read_map(argv[1], image, &image_len);
}

/* Records the list of a search. Returns 0, or the refusal. */
static uint32_t record(search *by, struct recorded *recorded, uint32_t *answer)
{
    uint32_t refusal = by(image, image_len, source, length, times, YARD_MAX_STATIONS, moves, YARD_MAX_STATIONS,
                          preds, YARD_MAX_STATIONS, marks, YARD_MAX_STATIONS,
                          recorded->list, YARD_MAX_STATIONS, answer, 4);

    recorded->list_len = answer[0];
    return refusal;
}

/* The reads of a list. They are not refused: a search lists pages of the map, and the numbers are good. */
static unsigned long reads(const struct recorded *recorded, size_t pages, size_t frames)
{
    uint32_t answer[4];

    if (yard_replay(recorded->list, recorded->list_len, pages, frames, distances, pages * pages, 0, answer, 4)
        != YARD_ACCEPTED)
        abort();
    return (unsigned long)yard_replay_reads(answer);
}

static enum status replay(void)
{
    uint32_t answer[4], refusal = record(yard_plain, &dijkstras, answer);
    size_t frames = 1, pages = yard_pages(image, image_len);

    if (refusal == YARD_ACCEPTED)
        refusal = record(yard_df, &ours, answer);
    if (refusal != YARD_ACCEPTED)
        return refused("search", refusal, answer);
    printf("            Dijkstra's list   our list\n");
    printf("references  %15lu  %9lu\n", (unsigned long)dijkstras.list_len, (unsigned long)ours.list_len);
    for (;;) {
        printf("%2lu frame%c   %15lu  %9lu\n", (unsigned long)frames, frames == 1 ? ' ' : 's',
               reads(&dijkstras, pages, frames), reads(&ours, pages, frames));
        if (frames >= pages || frames == YARD_MAX_FRAMES)
            return STATUS_DONE;
        frames *= 2;
    }
}

int main(int argc, char **argv)
{
    return read_arguments(argc, argv) ? replay() : STATUS_USAGE;
}
