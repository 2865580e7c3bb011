/* What the benchmark, a Rust program, does with a peer that one of the libraries made. */
#include "peers.h"

extern "C" void peer_search(Peer *peer, std::uint16_t source)
{
    peer->search(source);
}

extern "C" void peer_times(const Peer *peer, std::uint32_t *times, std::size_t stations)
{
    for (std::size_t station = 0; station < stations; station++)
        times[station] = peer->time(station);
}

extern "C" void peer_free(Peer *peer)
{
    delete peer;
}
