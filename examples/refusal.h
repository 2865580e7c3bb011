/*
 * What the examples way, redraw, order and replay share: a refusal printed in words, with the place that the answer
 * gives.
 */
#ifndef REFUSAL_H
#define REFUSAL_H

#include <stdio.h>
#include "map.h"

/* Prints the place: a station, a record, a page, or a page and an offset in it. Other refusals have none. */
static void print_place(uint32_t refusal, const uint32_t *answer)
{
    unsigned place = (unsigned)answer[2], offset = (unsigned)answer[3];

    if (refusal == YARD_REFUSED_DIRECTORY)
        printf(", station %u", place);
    else if (refusal == YARD_REFUSED_RECORD)
        printf(", record %u", place);
    else if (refusal == YARD_REFUSED_PAGE_FULL)
        printf(", page %u", place);
    else if ((refusal >= YARD_REFUSED_UNKNOWN_CODE && refusal <= YARD_REFUSED_BYTE_AFTER_END)
             || refusal == YARD_REFUSED_LIMIT_ZERO)
        printf(", page %u, offset %u", place, offset);
}

/* Of the call, or of the file, by that name. */
static enum status refused(const char *name, uint32_t refusal, const uint32_t *answer)
{
    printf("%s refused %u: %s", name, (unsigned)refusal, yard_refusal_meaning(refusal));
    print_place(refusal, answer);
    printf("\n");
    return STATUS_REFUSED;
}

#endif
