/*
 * The way from one station to another for a strip of a length in decimetres: way MAP SOURCE STATION [LENGTH]
 * Without a length, or with 0, every move is used.
 * Prints the stations on the way, its time, the number of its moves and that of page fetches; or "no route"; or the
 * refusal.
 * Ends with status 0 if there is a way, 1 if the search or the route was refused, 2 if the arguments are not a file
 * that can be read and two or three whole numbers from 0 to 65,535, and 3 if there is no route.
 */
#include <stdio.h>
#include "arguments.h"
#include "refusal.h"
#include "yard.h"

static uint8_t marks[YARD_MAX_STATIONS], list[YARD_MAX_STATIONS];
static uint32_t times[YARD_MAX_STATIONS];
static uint16_t moves[YARD_MAX_STATIONS], preds[YARD_MAX_STATIONS], way[YARD_MAX_STATIONS];

/* Searches from the source for a strip of the length and prints the way to the station. */
static enum status find_way(const struct arguments *asked)
{
    uint32_t answer[4], pages, refusal, i;

    refusal = yard_df(asked->image, asked->image_len, asked->source, asked->length, times, YARD_MAX_STATIONS,
                      moves, YARD_MAX_STATIONS, preds, YARD_MAX_STATIONS, marks, YARD_MAX_STATIONS,
                      list, YARD_MAX_STATIONS, answer, 4);
    if (refusal != YARD_ACCEPTED)
        return refused("search", refusal, answer);
    pages = answer[0];
    refusal = yard_route(preds, yard_stations(asked->image, asked->image_len), asked->station, way, YARD_MAX_STATIONS,
                         answer, 4);
    if (refusal != YARD_ACCEPTED)
        return refused("route", refusal, answer);
    if (answer[0] == 0) {
        printf("no route\n");
        return STATUS_NO_ROUTE;
    }
    for (i = 0; i < answer[0]; i++)
        printf("%u ", (unsigned)way[i]);
    printf("in %u tenths of a second, %u move%s, %u page fetch%s\n", (unsigned)times[asked->station],
           (unsigned)moves[asked->station], moves[asked->station] == 1 ? "" : "s", (unsigned)pages,
           pages == 1 ? "" : "es");
    return STATUS_DONE;
}

int main(int argc, char **argv)
{
    static struct arguments asked;

    return read_arguments("way", argc, argv, &asked) ? find_way(&asked) : STATUS_USAGE;
}
