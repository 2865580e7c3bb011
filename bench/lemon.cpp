/* LEMON's Dijkstra with the heap that it takes by itself, on its static graph, which keeps all moves in one array. */
#include "peers.h"

#if __has_include(<lemon/dijkstra.h>)

#define LEMON_ONLY_TEMPLATES
#include <lemon/dijkstra.h>
#include <lemon/static_graph.h>
#include <utility>
#include <vector>

namespace {

class Lemon : public Peer {
    typedef lemon::StaticDigraph Graph;
    typedef Graph::ArcMap<std::uint32_t> Times;

public:
    Lemon(std::size_t stations, const Move *moves, std::size_t count)
        : times(graph), dijkstra(graph, times)
    {
        std::vector<std::pair<int, int>> arcs;
        for (std::size_t at = 0; at < count; at++)
            arcs.emplace_back(moves[at].from, moves[at].target);
        graph.build(static_cast<int>(stations), arcs.begin(), arcs.end());
        for (std::size_t at = 0; at < count; at++)
            times[graph.arc(static_cast<int>(at))] = moves[at].time;
    }

    void search(std::uint16_t source) override
    {
        dijkstra.run(graph.node(source));
    }

    std::uint32_t time(std::size_t station) const override
    {
        const Graph::Node node = graph.node(static_cast<int>(station));
        return dijkstra.reached(node) ? dijkstra.dist(node) : NO_TIME;
    }

private:
    Graph graph;
    Times times;
    lemon::Dijkstra<Graph, Times> dijkstra;
};

}

Peer *lemon_peer(std::size_t stations, const Move *moves, std::size_t count)
{
    return new Lemon(stations, moves, count);
}

#else

Peer *lemon_peer(std::size_t, const Move *, std::size_t)
{
    return nullptr;
}

#endif
