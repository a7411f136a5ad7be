// The cut tree of the same networks by LEMON: the least cut between any two vertices.
//
//     lemon_cuts FILE REPEATS
//
// FILE has the numbers of vertices and links, and then a line 'tail head difference weight' for each link. One line is printed: the best
// time of LEMON's GomoryHu in microseconds, the sum of the strengths of the vertices (the least cuts that part them from vertex 0), and
// the sum of the least cuts that part the ends of the links.
#include <lemon/gomory_hu.h>
#include <lemon/smart_graph.h>

#include <chrono>
#include <cstdio>
#include <cstdlib>
#include <utility>
#include <vector>

using lemon::SmartGraph;
using Number = long long;

namespace {

struct Network {
    SmartGraph graph;
    SmartGraph::EdgeMap<Number> weight{graph};
    std::vector<SmartGraph::Node> nodes;
    std::vector<std::pair<long long, long long>> links;
};

bool read(const char* path, Network& network) {
    std::FILE* file = std::fopen(path, "r");
    long long vertices = 0, links = 0;
    if (!file || std::fscanf(file, "%lld %lld", &vertices, &links) != 2) return false;
    for (long long i = 0; i < vertices; i++) network.nodes.push_back(network.graph.addNode());
    for (long long i = 0; i < links; i++) {
        long long tail, head, difference, weight;
        if (std::fscanf(file, "%lld %lld %lld %lld", &tail, &head, &difference, &weight) != 4) return false;
        network.links.emplace_back(tail, head);
        // A link between two benchmarks joins vertex 0 to itself: no cut has it.
        if (tail != head) network.weight[network.graph.addEdge(network.nodes[tail], network.nodes[head])] = weight;
    }
    std::fclose(file);
    return true;
}

}  // namespace

int main(int count, char** words) {
    Network network;
    if (count != 3 || !read(words[1], network)) return 2;
    long long best = -1;
    Number strengths = 0, between = 0;
    for (int i = 0; i <= std::atoi(words[2]); i++) {
        const auto start = std::chrono::steady_clock::now();
        lemon::GomoryHu<SmartGraph, SmartGraph::EdgeMap<Number>> tree(network.graph, network.weight);
        tree.run();
        strengths = between = 0;
        for (std::size_t vertex = 1; vertex < network.nodes.size(); vertex++)
            strengths += tree.minCutValue(network.nodes[vertex], network.nodes[0]);
        for (const auto& [tail, head] : network.links)
            if (tail != head) between += tree.minCutValue(network.nodes[tail], network.nodes[head]);
        const auto time = std::chrono::duration_cast<std::chrono::microseconds>(std::chrono::steady_clock::now() - start).count();
        if (best < 0 || time < best) best = time;
    }
    std::printf("%lld %lld %lld\n", best, strengths, between);
    return 0;
}
