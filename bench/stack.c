/*
 * How much stack the calls of include/yard.h use. Each call is made on a painted stack of its own, on full maps and on
 * damaged ones; what it wrote shows in the paint. Prints the most that was seen of each call, and ends with status 1 if
 * that is not below the header's 256 KiB.
 */
#include <stdio.h>
#include <stdlib.h>
#include <string.h>
#include <ucontext.h>
#include "yard.h"

#define STACK_BYTES ((size_t)512 * 1024)
#define PROMISED ((size_t)256 * 1024)
#define FULL_MAPS 8
#define LIMITED_FROM 6
#define DAMAGED_OF_EACH 400

static uint8_t stack[STACK_BYTES];
static ucontext_t outside, inside;

/* The call in hand: its arguments, and what it returned. */
static uint8_t image[YARD_MAX_IMAGE_BYTES];
static size_t image_len;
static uint16_t source, length, station;
static uint32_t times[YARD_MAX_STATIONS], answer[4], returned;
static uint16_t moves[YARD_MAX_STATIONS], preds[YARD_MAX_STATIONS], way[YARD_MAX_STATIONS];
static uint8_t marks[YARD_MAX_STATIONS], list[YARD_MAX_STATIONS];
static size_t preds_len, way_len;
static struct yard_record records[YARD_MAX_RECORDS], drawn[YARD_MAX_RECORDS];
static size_t records_len, drawn_len;
static uint8_t buffer[YARD_MAX_IMAGE_BYTES], full[YARD_MAX_IMAGE_BYTES];
static const uint8_t *first, *second;
static size_t first_len, second_len;
static uint32_t distances[YARD_MAX_PAGES * YARD_MAX_PAGES], threshold;
static size_t list_len, pages, frames, distances_len;

static void nothing(void)
{
    returned = YARD_ACCEPTED;
}

static void check(void)
{
    returned = yard_check(image, image_len, answer, 4);
}

static void plain(void)
{
    returned = yard_plain(image, image_len, source, length, times, YARD_MAX_STATIONS, moves, YARD_MAX_STATIONS,
                          preds, YARD_MAX_STATIONS, marks, YARD_MAX_STATIONS, list, YARD_MAX_STATIONS, answer, 4);
}

static void df(void)
{
    returned = yard_df(image, image_len, source, length, times, YARD_MAX_STATIONS, moves, YARD_MAX_STATIONS,
                       preds, YARD_MAX_STATIONS, marks, YARD_MAX_STATIONS, list, YARD_MAX_STATIONS, answer, 4);
}

static void route(void)
{
    returned = yard_route(preds, preds_len, station, way, way_len, answer, 4);
}

static void panel(void)
{
    returned = yard_panel_refusal(yard_panel(image, image_len, source, length, station));
}

static void read_records(void)
{
    returned = yard_records(image, image_len, records, records_len, answer, 4);
}

/* With the numbers and the directory that the image has. */
static void write_image(void)
{
    returned = yard_write(records, drawn_len, (uint16_t)yard_stations(image, image_len),
                          (uint16_t)yard_pages(image, image_len), image + YARD_HEADING_BYTES,
                          yard_stations(image, image_len), buffer, image_len, answer, 4);
}

static void order(void)
{
    returned = yard_order(first, first_len, second, second_len, answer, 4);
}

static void replay(void)
{
    returned = yard_replay(list, list_len, pages, frames, distances, distances_len, threshold, answer, 4);
}

/* What was seen of a call: the most bytes, and how often it was accepted and refused. */
struct seen {
    const char *name;
    void (*call)(void);
    size_t most;
    unsigned long accepted, refused;
};

static struct seen base = {"nothing", nothing, 0, 0, 0};
static struct seen of_check = {"yard_check", check, 0, 0, 0};
static struct seen of_plain = {"yard_plain", plain, 0, 0, 0};
static struct seen of_df = {"yard_df", df, 0, 0, 0};
static struct seen of_route = {"yard_route", route, 0, 0, 0};
static struct seen of_panel = {"yard_panel", panel, 0, 0, 0};
static struct seen of_records = {"yard_records", read_records, 0, 0, 0};
static struct seen of_write = {"yard_write", write_image, 0, 0, 0};
static struct seen of_order = {"yard_order", order, 0, 0, 0};
static struct seen of_replay = {"yard_replay", replay, 0, 0, 0};

/* The bytes from the lowest one that is no longer paint to the stack's end, after the call on a stack of that paint. */
static size_t used_on(uint8_t paint, void (*call)(void))
{
    size_t untouched = 0;

    memset(stack, paint, STACK_BYTES);
    if (getcontext(&inside) != 0)
        abort();
    inside.uc_stack.ss_sp = stack;
    inside.uc_stack.ss_size = STACK_BYTES;
    inside.uc_link = &outside;
    makecontext(&inside, call, 0);
    if (swapcontext(&outside, &inside) != 0)
        abort();
    while (untouched < STACK_BYTES && stack[untouched] == paint)
        untouched++;
    return STACK_BYTES - untouched;
}

/* Makes the call on two paints, so that no byte passes for paint by chance, and notes the greater use. */
static void measure(struct seen *seen)
{
    size_t one = used_on(0xA5, seen->call), other = used_on(0x5A, seen->call), most = one > other ? one : other;

    if (most > seen->most)
        seen->most = most;
    if (returned == YARD_ACCEPTED)
        seen->accepted++;
    else
        seen->refused++;
}

/* Numbers below a limit, the same in every run (a linear congruence of 64 bits). */
static uint32_t below(uint32_t limit)
{
    static uint64_t state = 1;

    state = state * UINT64_C(6364136223846793005) + UINT64_C(1442695040888963407);
    return (uint32_t)(state >> 33) % limit;
}

static size_t put_word(size_t at, uint32_t word)
{
    image[at] = (uint8_t)(word % 256);
    image[at + 1] = (uint8_t)(word / 256);
    return at + 2;
}

/* A station with up to five moves, or three with limits: one to each part of the map, so that the targets rise. */
static size_t put_station(size_t at, uint32_t own, uint32_t longest, int limited)
{
    uint32_t part, parts = limited ? 3 : 5, stations = YARD_MAX_STATIONS / parts;

    image[at++] = 1;
    at = put_word(at, own);
    for (part = 0; part < parts; part++) {
        uint32_t target = part * stations + below(stations);
        if (target == own)
            continue;
        image[at++] = limited ? 3 : 2;
        at = put_word(at, target);
        at = put_word(at, below(longest + 1));
        if (limited)
            at = put_word(at, 1 + below(65535));
    }
    return at;
}

/*
 * A full map: all stations, all pages, in rows of neighbours (kind even) or dealt out; times from 0 to a longest one;
 * from kind LIMITED_FROM on all moves have limits.
 */
static void put_full_map(uint32_t kind)
{
    static const uint32_t longest[] = {1, 10, 65535};
    size_t directory = 4, first_page = directory + YARD_MAX_STATIONS, ends[YARD_MAX_PAGES] = {0};
    uint32_t own;

    memset(image, 0, sizeof image);
    image_len = sizeof image;
    put_word(put_word(0, YARD_MAX_STATIONS), YARD_MAX_PAGES);
    for (own = 0; own < YARD_MAX_STATIONS; own++) {
        uint32_t page = kind % 2 == 0 ? own * YARD_MAX_PAGES / YARD_MAX_STATIONS : own % YARD_MAX_PAGES;
        size_t begins = first_page + (size_t)page * YARD_PAGE_BYTES;
        image[directory + own] = (uint8_t)page;
        ends[page] = put_station(begins + ends[page], own, longest[kind / 2 % 3], kind >= LIMITED_FROM) - begins;
    }
}

/* A copy of the full map in hand, and its records, from which it can be written again. */
static void draw_full_map(void)
{
    memcpy(full, image, sizeof image);
    if (yard_records(image, image_len, drawn, YARD_MAX_RECORDS, answer, 4) != YARD_ACCEPTED)
        abort();
    drawn_len = answer[0];
}

/* Any station; one of sixteen is not below YARD_MAX_STATIONS. */
static uint16_t any_station(void)
{
    uint32_t past = below(65536 - YARD_MAX_STATIONS);

    return (uint16_t)(below(16) == 0 ? YARD_MAX_STATIONS + past : below(YARD_MAX_STATIONS));
}

/*
 * Reading records into a list with room for all or not; then writing those of the full map: as they are, one of them
 * with another target, by which it may not be in its place, and many with limits, by which a page may be too full.
 */
static void measure_records(void)
{
    size_t at = below((uint32_t)drawn_len), behind = drawn_len - at < 80 ? drawn_len : at + 80;

    records_len = below(8) == 0 ? below((uint32_t)drawn_len) : YARD_MAX_RECORDS;
    measure(&of_records);
    memcpy(records, drawn, sizeof drawn);
    measure(&of_write);
    records[at].target = any_station();
    measure(&of_write);
    records[at] = drawn[at];
    for (; at < behind; at++)
        records[at].limit = 65535;
    measure(&of_write);
}

static void measure_order(const uint8_t *one, size_t one_len, const uint8_t *other, size_t other_len)
{
    first = one;
    first_len = one_len;
    second = other;
    second_len = other_len;
    measure(&of_order);
}

/*
 * The map in hand and the full map that it was before it was damaged, both ways round; the map in hand and itself; and
 * the full map and the last image that was written of its records, which has limits if there was room for them.
 */
static void measure_orders(void)
{
    measure_order(image, image_len, full, sizeof full);
    measure_order(full, sizeof full, image, image_len);
    measure_order(image, image_len, image, image_len);
    measure_order(full, sizeof full, buffer, sizeof buffer);
}

/* Every page at some distance from every page, itself among them. */
static void put_distances(void)
{
    size_t at;

    for (at = 0; at < sizeof distances / sizeof distances[0]; at++)
        distances[at] = below(1000);
}

/*
 * The list that the last search left, and behind it what others did, in a store of any number of frames; then with a
 * number of pages, frames or distances that is refused, or fewer pages than the list may name.
 */
static void measure_replays(void)
{
    list_len = YARD_MAX_STATIONS;
    pages = YARD_MAX_PAGES;
    frames = 1 + below(YARD_MAX_FRAMES);
    distances_len = pages * pages;
    threshold = below(1000);
    measure(&of_replay);
    switch (below(4)) {
    case 0: pages = below(2) * (YARD_MAX_PAGES + 1); break;
    case 1: frames = below(2) * (YARD_MAX_FRAMES + 1); break;
    case 2: distances_len--; break;
    default: pages = 1 + below(YARD_MAX_PAGES); distances_len = pages * pages;
    }
    measure(&of_replay);
}

/*
 * All calls on the map in hand; the route on the predecessors that the DF search left, or on damaged ones; the panel
 * from and to stations of its own, which the map need not have.
 */
static void measure_all(void)
{
    source = (uint16_t)below(YARD_MAX_STATIONS);
    length = (uint16_t)below(65536);
    measure(&of_check);
    measure(&of_plain);
    measure(&of_df);
    preds_len = yard_stations(image, image_len);
    station = (uint16_t)below(YARD_MAX_STATIONS);
    way_len = YARD_MAX_STATIONS;
    measure(&of_route);
    way_len = below(8);
    measure(&of_route);
    way_len = YARD_MAX_STATIONS;
    preds[station] = station;
    measure(&of_route);
    source = any_station();
    station = any_station();
    measure(&of_panel);
    measure_records();
    measure_orders();
    measure_replays();
}

/* Damages one byte of the map in hand at a time, takes it back, and now and then cuts the map short. */
static void measure_damaged(void)
{
    int turn;

    for (turn = 0; turn < DAMAGED_OF_EACH; turn++) {
        size_t at = turn % 4 == 0 ? below(4 + YARD_MAX_STATIONS) : below((uint32_t)sizeof image);
        uint8_t kept = image[at];
        image[at] = (uint8_t)below(256);
        image_len = turn % 16 == 0 ? below((uint32_t)sizeof image) : sizeof image;
        measure_all();
        image[at] = kept;
        image_len = sizeof image;
    }
}

/* The line of a call; the bytes that a call of nothing takes are the context's own. */
static int told(const struct seen *seen)
{
    size_t bytes = seen->most - base.most;

    printf("%-12s %6lu bytes at most (%lu accepted, %lu refused)\n", seen->name, (unsigned long)bytes,
           seen->accepted, seen->refused);
    return bytes < PROMISED;
}

int main(void)
{
    uint32_t kind;
    int kept;

    measure(&base);
    put_distances();
    for (kind = 0; kind < FULL_MAPS; kind++) {
        put_full_map(kind);
        draw_full_map();
        measure_all();
        measure_damaged();
    }
    kept = told(&of_check);
    kept &= told(&of_plain);
    kept &= told(&of_df);
    kept &= told(&of_route);
    kept &= told(&of_panel);
    kept &= told(&of_records);
    kept &= told(&of_write);
    kept &= told(&of_order);
    kept &= told(&of_replay);
    return kept ? 0 : 1;
}
