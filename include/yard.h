/*
 * The yard's routing engine for C99 and C++11 programs. Link libyard.a (make libyard; where it is installed,
 * pkg-config --cflags --libs yard).
 *
 * A map image is the whole map as bytes; whole numbers are little-endian, u16 has 16 bits:
 *     u16 N            number of stations, 1 to YARD_MAX_STATIONS; they are numbered from 0
 *     u16 P            number of pages, 1 to YARD_MAX_PAGES
 *     N bytes          the directory: the page of each station, below P
 *     P pages of YARD_PAGE_BYTES, each a row of commands:
 *         01, u16 s            begins station s
 *         02, u16 v, u16 t     a move of that station: to station v, in t tenths of a second, 0 to 65,535
 *         03, u16 v, u16 t, u16 l
 *                              such a move with a limit: it takes strips of up to l decimetres, 1 to 65,535
 *         00                   ends the page; zeros follow
 * A page names just its own stations, rising; the targets of a station rise and differ from it. A time of 0 is a
 * handover: a stop, such as a turntable, that has two station numbers. README.md says it at more length, and lists the
 * definitions that say it exactly. A map can also be had as records, a struct yard_record for each move: yard_records
 * gives those of an image, yard_write the image of records; and by its records a map is put in order with others
 * (yard_order). The page lists that searches record are replayed to find how many pages a store of some frames reads
 * (yard_replay).
 *
 * A slice is passed as a pointer and a length in entries; a length of 0 needs a pointer that is not null. The slices
 * of one call must not overlap, but for the two images of yard_order and the list and the distances of yard_replay,
 * which are only read: they may be the same memory or overlap. No call allocates, and none keeps a pointer.
 *
 * Units: times are in tenths of a second, the length of a strip in decimetres, offsets in bytes, lengths of slices in
 * entries; moves are the number of moves on a way; distances of pages and their threshold are in one unit, whichever.
 *
 * Threads: the library has no variables of its own, so that calls may run at the same time in any threads, also on the
 * same image, as long as no thread uses memory that another thread's call is writing.
 *
 * Stack: a call's stack use stays below 256 KiB. The most that was seen, in bytes, arguments included (`make stack` on
 * x86-64: full maps and damaged ones):
 *     yard_check 77,600    yard_plain 112,800    yard_df 112,800    yard_route 89    yard_panel 133,200
 *     yard_records 177,600    yard_write 104,232    yard_order 83,936    yard_replay 1,160
 *
 * Each call but yard_panel returns 0 if accepted, else the refusal's number (1 to 20 and 23, but never 13); yard_panel
 * returns a double and has no answer. Where answer has four entries or more, the first four get
 *     answer[0]  count:   entries of the page list, stations on the route, or records of the map;
 *                of yard_order the map that comes first: 1 the first image's, 2 the second's, 0 if they are equal;
 *                of yard_replay the lower 32 bits of the number of reads
 *     answer[1]  reached: stations that have a time, the source among them;
 *                of a refusal by yard_order the image that is refused: 1 the first, 2 the second;
 *                of yard_replay the upper
 *     answer[2]  page of a page refusal (8 to 12, 14 and 18), and of 20; for 5 the station; for 19 the record's index
 *     answer[3]  offset of a page refusal in its page, in bytes: that of the command at fault
 * and numbers that do not apply are 0. A shorter answer is left as it is, and so are later entries.
 */
#ifndef YARD_H
#define YARD_H

#include <stddef.h>
#include <stdint.h>

#ifdef __cplusplus
extern "C" {
#endif

/*
 * The version of this interface and of what is installed with it, the programs coils and yard: MAJOR rises when
 * programs have to change, MINOR when something is added. This is the only place where it stands.
 */
#define YARD_VERSION_MAJOR 3
#define YARD_VERSION_MINOR 5

/* The limits of a map. Read a file into YARD_MAX_IMAGE_BYTES + 1 bytes: one that is too long is then refused by 4. */
#define YARD_MAX_STATIONS 2048
#define YARD_MAX_PAGES 240
#define YARD_PAGE_BYTES 256
#define YARD_MAX_IMAGE_BYTES 63492

/* The heading of an image has so many bytes; behind it stands the directory. */
#define YARD_HEADING_BYTES 4

/*
 * Room for the records of every map: a move has five bytes or more of the 255 that a page has beside its end, so that
 * there are never more than 51 on each of YARD_MAX_PAGES pages.
 */
#define YARD_MAX_RECORDS 12240

/* The most frames of a store, for yard_replay. */
#define YARD_MAX_FRAMES 64

/* The entries of a station that was not reached, and the predecessor of the source. */
#define YARD_NO_TIME UINT32_C(4294967295)
#define YARD_NO_MOVES UINT16_C(65535)
#define YARD_NO_PREDECESSOR UINT16_C(65535)
#define YARD_SOURCE UINT16_C(65534)

/* What yard_panel returns for a station that was not reached. */
#define YARD_NO_ROUTE (-1.0)

/* A move as a record: from station to station in tenths of a second, with a limit in decimetres or 0 for none. */
struct yard_record {
    uint16_t from, target, time, limit;
};

/* One of the two images of yard_order, or neither: what answer[0] and answer[1] say of them. */
enum yard_image {
    YARD_NEITHER = 0,
    YARD_FIRST = 1,
    YARD_SECOND = 2
};

/*
 * What a call returns: the refusals by their numbers; yard_refusal_meaning has their conditions. Of what yard_panel
 * returns, yard_panel_refusal gives the number.
 */
enum yard_refusal {
    YARD_ACCEPTED = 0,
    /* of the whole map: 5 gives the lowest such station in answer[2] */
    YARD_REFUSED_IMAGE_TOO_SHORT = 1,
    YARD_REFUSED_STATION_COUNT = 2,
    YARD_REFUSED_PAGE_COUNT = 3,
    YARD_REFUSED_IMAGE_LENGTH = 4,
    YARD_REFUSED_DIRECTORY = 5,
    /* of the caller's source, or the station of yard_panel, and of the tables */
    YARD_REFUSED_SOURCE = 6,
    YARD_REFUSED_TABLE_TOO_SHORT = 7,
    /* of a page: answer[2] is the page, answer[3] the offset */
    YARD_REFUSED_UNKNOWN_CODE = 8,
    YARD_REFUSED_PAGE_OVERRUN = 9,
    YARD_REFUSED_STATION_ORDER = 10,
    YARD_REFUSED_MOVE_BEFORE_STATION = 11,
    YARD_REFUSED_TARGET = 12,
    YARD_REFUSED_TIME_ZERO = 13, /* not used since 3.1, where a move may take no time: no call returns it */
    YARD_REFUSED_BYTE_AFTER_END = 14,
    /* of a route */
    YARD_REFUSED_ROUTE_STATION = 15,
    YARD_REFUSED_ROUTE_CHAIN = 16,
    YARD_REFUSED_ROUTE_ROOM = 17,
    /* of a page, as 8 to 12 and 14 */
    YARD_REFUSED_LIMIT_ZERO = 18,
    /* of records to be written: answer[2] is the index of the first such record (19), the lowest such page (20) */
    YARD_REFUSED_RECORD = 19,
    YARD_REFUSED_PAGE_FULL = 20,
    /* of a replay; no call of this version returns 21 or 22 */
    YARD_REFUSED_REPLAY = 23
};

/* A refusal's meaning in words; of 0 "accepted". The string is constant and is never null. */
static inline const char *yard_refusal_meaning(uint32_t refusal)
{
    switch (refusal) {
    case YARD_ACCEPTED: return "accepted";
    case YARD_REFUSED_IMAGE_TOO_SHORT: return "image under 4 bytes";
    case YARD_REFUSED_STATION_COUNT: return "number of stations is 0 or over 2,048";
    case YARD_REFUSED_PAGE_COUNT: return "number of pages is 0 or over 240";
    case YARD_REFUSED_IMAGE_LENGTH: return "image, or a directory to be written, is not as long as N and P say";
    case YARD_REFUSED_DIRECTORY: return "directory gives a station a page that the map does not have";
    case YARD_REFUSED_SOURCE: return "source, or the panel's station, is not a station of the map";
    case YARD_REFUSED_TABLE_TOO_SHORT: return "a table has fewer entries than stations, or a record list than moves";
    case YARD_REFUSED_UNKNOWN_CODE: return "unknown command code";
    case YARD_REFUSED_PAGE_OVERRUN: return "command passes the page's end, or the page has no end command";
    case YARD_REFUSED_STATION_ORDER: return "not the next station of the page, or one is missing at the end";
    case YARD_REFUSED_MOVE_BEFORE_STATION: return "move before a station";
    case YARD_REFUSED_TARGET: return "target is not a station of the map, is the station itself, or does not rise";
    case YARD_REFUSED_BYTE_AFTER_END: return "byte other than 00 after the end";
    case YARD_REFUSED_ROUTE_STATION: return "no predecessors or over 2,048, or no such station among them";
    case YARD_REFUSED_ROUTE_CHAIN: return "predecessors do not lead to a source";
    case YARD_REFUSED_ROUTE_ROOM: return "output is shorter than the route";
    case YARD_REFUSED_LIMIT_ZERO: return "limit of a move is 0";
    case YARD_REFUSED_RECORD: return "record is not of two stations of the map, or not above the record before it";
    case YARD_REFUSED_PAGE_FULL: return "stations and moves of a page need more than its 256 bytes";
    case YARD_REFUSED_REPLAY:
        return "number of frames is 0 or over 64, a list entry is not a page, or the distance table is not P by P";
    default: return "not a refusal of this version";
    }
}

/* The number of stations N of an image, 1 to YARD_MAX_STATIONS; 0 where a call would be refused by 1 or 2. */
static inline size_t yard_stations(const uint8_t *image, size_t image_len)
{
    size_t stations = image_len < 4 ? 0 : image[0] + (size_t)256 * image[1];
    return stations <= YARD_MAX_STATIONS ? stations : 0;
}

/* The number of pages P of an image, 1 to YARD_MAX_PAGES; 0 where a call would be refused by 1 or 3. */
static inline size_t yard_pages(const uint8_t *image, size_t image_len)
{
    size_t pages = image_len < 4 ? 0 : image[2] + (size_t)256 * image[3];
    return pages <= YARD_MAX_PAGES ? pages : 0;
}

/* The length in bytes of an image of so many stations and pages. */
static inline size_t yard_image_bytes(size_t stations, size_t pages)
{
    return YARD_HEADING_BYTES + stations + YARD_PAGE_BYTES * pages;
}

/* The whole check of a map: refusals 1 to 5, then every page by rising number, with every move, whatever its limit. */
uint32_t yard_check(const uint8_t *image, size_t image_len, uint32_t *answer, size_t answer_len);

/*
 * The two searches from a source for a strip of a length: yard_plain is Dijkstra's, yard_df fetches fewer pages or as
 * many. A move is used if it has no limit or its limit is not below the length; with a length of 0 every move is. Of
 * two ways that of less time is taken and, at equal time, that of fewer moves; a move that takes no time counts as a
 * move. Each table needs an entry for each of the map's N stations (refusal 7), and YARD_MAX_STATIONS entries are enough
 * for every map.
 *     times    the least time to each station, in tenths of a second
 *     moves    the number of moves on the way: the fewest by which that time is reached
 *     preds    the station before it on the way, of several with that time and number of moves the lowest
 *     marks    working bytes of the search, which hold nothing for the caller
 *     list     the pages in the order in which they were fetched, a page once for each time
 * Accepted: the first N entries of times, moves, preds and marks are written (a station without a time has
 * YARD_NO_TIME, YARD_NO_MOVES and YARD_NO_PREDECESSOR; the source has time 0, moves 0 and YARD_SOURCE; marks are 0),
 * list holds answer[0] pages, and answer[1] stations have a time. Later entries are kept. From every station that has
 * a time the predecessors lead back to the source, in fewer than N steps, and the source alone has YARD_SOURCE.
 * Refused by 1 to 7: every table is untouched. Refused by a page (8 to 12, 14, 18): the first N entries are as if no
 * station had a time, and list holds the answer[0] pages fetched, the bad one last.
 * Where yard_df accepts, yard_plain does too for the same length, with the same times, moves and predecessors, and the
 * list of yard_df is that of yard_plain with some entries left out or none. Of two lengths that a search accepts, no
 * station has a lesser time for the longer one, nor fewer moves where the times are equal.
 */
uint32_t yard_plain(const uint8_t *image, size_t image_len, uint16_t source, uint16_t length,
                    uint32_t *times, size_t times_len, uint16_t *moves, size_t moves_len,
                    uint16_t *preds, size_t preds_len, uint8_t *marks, size_t marks_len,
                    uint8_t *list, size_t list_len, uint32_t *answer, size_t answer_len);
uint32_t yard_df(const uint8_t *image, size_t image_len, uint16_t source, uint16_t length,
                 uint32_t *times, size_t times_len, uint16_t *moves, size_t moves_len,
                 uint16_t *preds, size_t preds_len, uint8_t *marks, size_t marks_len,
                 uint8_t *list, size_t list_len, uint32_t *answer, size_t answer_len);

/*
 * The stations from the source to a station, by the predecessors that a search left (exactly N of them: preds_len is
 * yard_stations of the image). out gets answer[0] stations, later entries kept. A station without a way returns 0 with
 * answer[0] = 0 and writes nothing. Any refusal (15 to 17) writes nothing either. Predecessors that an accepted search
 * left are never refused by 16.
 */
uint32_t yard_route(const uint16_t *preds, size_t preds_len, uint16_t station, uint16_t *out, size_t out_len,
                    uint32_t *answer, size_t answer_len);

/*
 * The time to one station, as a panel shows it: the search of yard_df on tables of the call's own. Returns
 *     0 to 134,150,145    the least time from the source, a whole number of tenths of a second
 *     YARD_NO_ROUTE       there is no route to the station
 *     -100 - n            refusal n, without its place
 * The refusals are those of yard_df but for 7, which cannot occur. A station that is not below N is refusal 6, as such
 * a source is: tried after 1 to 5 and before any page.
 */
double yard_panel(const uint8_t *image, size_t image_len, uint16_t source, uint16_t length, uint16_t station);

/* The number of the refusal that yard_panel returned; 0 where it returned a time or YARD_NO_ROUTE. */
static inline uint32_t yard_panel_refusal(double returned)
{
    return returned <= -101.0 ? (uint32_t)(-100.0 - returned) : 0;
}

/*
 * The records of an image: first the whole check, refused as yard_check refuses; then refusal 7 if records_len, which
 * counts records, is less than the number of moves. Room for YARD_MAX_RECORDS is enough for every map.
 * Accepted: the first answer[0] records are the moves of the map, each once, by rising (from, target): from, and for
 * equal from target. Later entries are kept. Refused: every entry is untouched.
 */
uint32_t yard_records(const uint8_t *image, size_t image_len, struct yard_record *records, size_t records_len,
                      uint32_t *answer, size_t answer_len);

/*
 * The image of records, for a number of stations N, a number of pages P and the directory, the page of each station. A
 * record with limit 0 becomes a move without a limit. Refused are, in this order:
 *     2, 3    N or P, as in an image
 *     4       image_len is not yard_image_bytes of N and P, or directory_len is not N
 *     5       a page of the directory is not below P; answer[2] is the lowest such station
 *     19      from or target is not below N, target is from, or the record is not above the one before it by
 *             (from, target); answer[2] is the index of the first such record
 *     20      a page needs more than YARD_PAGE_BYTES, 3 for each of its stations, 5 for each of their moves, or 7 where
 *             it has a limit, and 1 for its end; answer[2] is the lowest such page
 * Accepted: the whole buffer is the image, which yard_check accepts. Refused: the buffer is untouched.
 * Reading a written image gives the records again, and writing the records of an accepted image, with its N, P and
 * directory, gives its bytes.
 */
uint32_t yard_write(const struct yard_record *records, size_t records_len, uint16_t stations, uint16_t pages,
                    const uint8_t *directory, size_t directory_len, uint8_t *image, size_t image_len,
                    uint32_t *answer, size_t answer_len);

/*
 * The order of two maps, in which the drafts of one yard come to lie side by side: by N; for equal N by the records as
 * a list, as yard_records gives it, record by record by from, target, time and limit, and a list that is a front part
 * of another comes first. The number of pages and the directory have no part in it. All maps lie in one line by this
 * order, so that they can be sorted by it. The images may be the same memory or overlap.
 * First comes the whole check of the first image, then that of the second. Refused: as yard_check refuses that image,
 * and answer[1] says which it is, YARD_FIRST or YARD_SECOND.
 * Accepted: answer[0] is YARD_FIRST if the first map comes first, YARD_SECOND if the second does, and YARD_NEITHER if
 * they are equal, which they are exactly if N and the moves are the same. Both searches then leave the same times,
 * moves and predecessors for the one as for the other, for every source and length; the page lists may differ.
 * The call that hands back the lesser image itself, order::lesser, stays in Rattle: a C program has both images in hand
 * and takes the second where answer[0] is YARD_SECOND, else the first.
 */
uint32_t yard_order(const uint8_t *first, size_t first_len, const uint8_t *second, size_t second_len,
                    uint32_t *answer, size_t answer_len);

/*
 * How many pages a store reads for a recorded list of references. The store has a number of frames, each with room for
 * one page, and holds nothing at first. A reference to a page that it holds is no read; any other is a miss, and one
 * read. Only when all frames hold pages does one leave at a miss: the least recently used of those that are farther
 * than the threshold from the page last referred to before the miss, or of all if none is.
 *     list         the pages in the order in which they are referred to, as the searches list them; of any length
 *     pages        the number of pages P, 1 to YARD_MAX_PAGES
 *     frames       the number of frames, 1 to YARD_MAX_FRAMES
 *     distances    P rows of P entries: in the row of the page last referred to, the distance from it to each page. It
 *                  need not be the same both ways, and a page may be far from itself, and then leaves as any other
 *     threshold    what a distance has to be above for a page to be far
 * Refused are, in this order, neither with a place:
 *     3     P is 0 or over YARD_MAX_PAGES
 *     23    frames is 0 or over YARD_MAX_FRAMES, an entry of list is not below P, or distances_len is not P times P
 * Accepted: answer[0] and answer[1] are the number of reads, of 64 bits; yard_replay_reads puts it together.
 * With one frame it is the number of entries unlike the one before, the first counted with them; there the list of an
 * accepted yard_df never takes more reads than that of yard_plain, but with several frames it may. With a threshold
 * that no distance is above, as 0 with a table of zeros, it is always the least recently used page that leaves. More
 * frames never read more, whatever the distances and the threshold.
 */
uint32_t yard_replay(const uint8_t *list, size_t list_len, size_t pages, size_t frames,
                     const uint32_t *distances, size_t distances_len, uint32_t threshold,
                     uint32_t *answer, size_t answer_len);

/* The number of reads, of the answer of a replay that was accepted. */
static inline uint64_t yard_replay_reads(const uint32_t *answer)
{
    return answer[0] + ((uint64_t)answer[1] << 32);
}

#ifdef __cplusplus
}
#endif

#endif
