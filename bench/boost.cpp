/* Boost's Dijkstra with the heap that it takes by itself, on its graph that keeps all moves in one array. */
#include "peers.h"

#if __has_include(<boost/graph/dijkstra_shortest_paths.hpp>)

#include <boost/graph/compressed_sparse_row_graph.hpp>
#include <boost/graph/dijkstra_shortest_paths.hpp>
#include <utility>
#include <vector>

namespace {

struct Step {
    std::uint32_t time;
};

class Boost : public Peer {
    typedef boost::compressed_sparse_row_graph<boost::directedS, boost::no_property, Step> Graph;
    typedef boost::graph_traits<Graph>::vertex_descriptor Vertex;

public:
    Boost(std::size_t stations, const Move *moves, std::size_t count) : preds(stations), times(stations)
    {
        std::vector<std::pair<std::size_t, std::size_t>> arcs;
        std::vector<Step> steps;
        for (std::size_t at = 0; at < count; at++) {
            arcs.emplace_back(moves[at].from, moves[at].target);
            steps.push_back(Step{moves[at].time});
        }
        graph = Graph(boost::edges_are_sorted, arcs.begin(), arcs.end(), steps.begin(), stations);
    }

    void search(std::uint16_t source) override
    {
        boost::dijkstra_shortest_paths(graph, Vertex(source), boost::weight_map(boost::get(&Step::time, graph))
            .predecessor_map(boost::make_iterator_property_map(preds.begin(), boost::get(boost::vertex_index, graph)))
            .distance_map(boost::make_iterator_property_map(times.begin(), boost::get(boost::vertex_index, graph))));
    }

    std::uint32_t time(std::size_t station) const override
    {
        return times[station];
    }

private:
    Graph graph;
    std::vector<Vertex> preds;
    std::vector<std::uint32_t> times;
};

}

Peer *boost_peer(std::size_t stations, const Move *moves, std::size_t count)
{
    return new Boost(stations, moves, count);
}

#else

Peer *boost_peer(std::size_t, const Move *, std::size_t)
{
    return nullptr;
}

#endif
