/*
 * Searches of other libraries, for the benchmark: each is made from the moves of a map that are open to the strip,
 * ready for searches, and gives the time to each station that its last search found. A library that is not installed is
 * left out.
 */
#ifndef PEERS_H
#define PEERS_H

#include <cstddef>
#include <cstdint>

/* A move of a map; moves come by rising station and, of one station, by rising target. */
struct Move {
    std::uint16_t from, target, time;
};

/* The time of a station that was not reached, as in yard.h. */
const std::uint32_t NO_TIME = 4294967295u;

class Peer {
public:
    virtual ~Peer() = default;
    virtual void search(std::uint16_t source) = 0;
    virtual std::uint32_t time(std::size_t station) const = 0;
};

/* Null where the library is not installed. */
extern "C" Peer *lemon_peer(std::size_t stations, const Move *moves, std::size_t count);
extern "C" Peer *boost_peer(std::size_t stations, const Move *moves, std::size_t count);

#endif
