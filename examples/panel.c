/*
 * What the panel of a crane cabin shows, the time from a source to one station for a strip of a length in decimetres:
 * panel MAP SOURCE STATION [LENGTH]
 * Without a length, or with 0, every move is used.
 * Prints the time in seconds; or "no route"; or the refusal.
 * Ends with status 0 if there is a time, 1 if the call was refused, 2 if the arguments are not a file that can be read
 * and two or three whole numbers from 0 to 65,535, and 3 if there is no route.
 */
#include <stdio.h>
#include "arguments.h"
#include "yard.h"

/* The three things that the one number of yard_panel can be. */
enum kind { TIME, NO_ROUTE, REFUSED };

static enum kind kind_of(double shown)
{
    if (yard_panel_refusal(shown) != YARD_ACCEPTED)
        return REFUSED;
    return shown == YARD_NO_ROUTE ? NO_ROUTE : TIME;
}

/* Prints what it is. Seconds are put together from the whole number of tenths: no digit comes of rounding. */
static enum status show(uint16_t station, double shown)
{
    enum status status = STATUS_REFUSED;
    uint32_t tenths, refusal;

    switch (kind_of(shown)) {
    case TIME:
        tenths = (uint32_t)shown;
        printf("station %u: %u.%u s\n", (unsigned)station, (unsigned)(tenths / 10), (unsigned)(tenths % 10));
        status = STATUS_DONE;
        break;
    case NO_ROUTE:
        printf("station %u: no route\n", (unsigned)station);
        status = STATUS_NO_ROUTE;
        break;
    case REFUSED:
        refusal = yard_panel_refusal(shown);
        printf("refused %u: %s\n", (unsigned)refusal, yard_refusal_meaning(refusal));
        break;
    }
    return status;
}

int main(int argc, char **argv)
{
    static struct arguments asked;
    double shown;

    if (!read_arguments("panel", argc, argv, &asked))
        return STATUS_USAGE;
    shown = yard_panel(asked.image, asked.image_len, asked.source, asked.length, asked.station);
    return show(asked.station, shown);
}
