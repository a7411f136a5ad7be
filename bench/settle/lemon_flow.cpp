// The same networks by LEMON: the least cost of a circulation, by the network simplex and by cost scaling.
//
//     lemon_flow FILE REPEATS [cpu | simplex]
//
// FILE has the numbers of vertices and links, and then a line 'tail head difference weight' for each link. One line is printed: the best
// time of each in microseconds, making the solver and solving together, and what the best flows gain. With `cpu` it is processor time. With
// `simplex` there is no cost scaling, whose time is printed as -1: it fails where costs times vertices leave 64 bits.
#include <lemon/cost_scaling.h>
#include <lemon/network_simplex.h>
#include <lemon/smart_graph.h>

#include <algorithm>
#include <chrono>
#include <cstdio>
#include <cstdlib>
#include <cstring>
#include <ctime>
#include <vector>

using lemon::SmartDigraph;
using Number = long long;

namespace {

struct Network {
    SmartDigraph graph;
    SmartDigraph::ArcMap<Number> lower{graph}, upper{graph}, cost{graph};
};

struct Best {
    long long microseconds = -1;
    Number gain = 0;
};

bool read(const char* path, Network& network) {
    std::FILE* file = std::fopen(path, "r");
    long long vertices = 0, links = 0;
    if (!file || std::fscanf(file, "%lld %lld", &vertices, &links) != 2) return false;
    std::vector<SmartDigraph::Node> nodes;
    for (long long i = 0; i < vertices; i++) nodes.push_back(network.graph.addNode());
    for (long long i = 0; i < links; i++) {
        long long tail, head, difference, weight;
        if (std::fscanf(file, "%lld %lld %lld %lld", &tail, &head, &difference, &weight) != 4) return false;
        const SmartDigraph::Arc arc = network.graph.addArc(nodes[tail], nodes[head]);
        network.lower[arc] = -weight;
        network.upper[arc] = weight;
        network.cost[arc] = -difference;
    }
    std::fclose(file);
    return true;
}

enum class Clock { wall, processor };

long long now(Clock clock) {
    if (clock == Clock::processor) return static_cast<long long>(std::clock()) * 1'000'000 / CLOCKS_PER_SEC;
    const auto time = std::chrono::steady_clock::now().time_since_epoch();
    return std::chrono::duration_cast<std::chrono::microseconds>(time).count();
}

template <class Solver>
Best solve(const Network& network, int repeats, Clock clock) {
    Best best;
    for (int i = 0; i <= repeats; i++) {
        const long long start = now(clock);
        Solver solver(network.graph);
        solver.lowerMap(network.lower).upperMap(network.upper).costMap(network.cost);
        if (solver.run() != Solver::OPTIMAL) std::exit(1);
        const long long time = now(clock) - start;
        if (best.microseconds < 0 || time < best.microseconds) best.microseconds = time;
        // A gain may be above 2^63: it is printed modulo 2^64, and compared so.
        best.gain = -solver.template totalCost<Number>();
    }
    return best;
}

}  // namespace

int main(int count, char** words) {
    Network network;
    if (count < 3 || count > 4 || !read(words[1], network)) return 2;
    const bool by_processor = count == 4 && std::strcmp(words[3], "cpu") == 0;
    const bool by_simplex = count == 4 && std::strcmp(words[3], "simplex") == 0;
    if (count == 4 && !by_processor && !by_simplex) return 2;
    const Clock clock = by_processor ? Clock::processor : Clock::wall;
    const int repeats = std::atoi(words[2]);
    const Best simplex = solve<lemon::NetworkSimplex<SmartDigraph, Number, Number>>(network, repeats, clock);
    Best scaling;
    if (!by_simplex) {
        scaling = solve<lemon::CostScaling<SmartDigraph, Number, Number>>(network, repeats, clock);
        if (simplex.gain != scaling.gain) return 1;
    }
    std::printf("%lld %lld %lld\n", simplex.microseconds, scaling.microseconds, simplex.gain);
    return 0;
}
