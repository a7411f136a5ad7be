// What is left if a number of a network is freed, plainly: each number by a whole solve with LEMON's network simplex.
//
//     lemon_freed FILE LIMIT
//
// FILE has the numbers of vertices, links and numbers; then a line 'tail head difference weight' for each link; and then, for each number,
// a line 'count reach' followed by as many entries 'link end': the ends of links, 0 for the tail and 1 for the head, that the number moves.
// Vertex 0 stands for all benchmarks. A number without ends stands for the network as it is.
//
// A freed number's ends leave from a vertex of their own, the spare one; its change is how much higher that is than the old one. For each
// number a line is printed: the least cost with any change of it; the lowest and the highest change with which it costs so little, or 'none
// none' where any change does; the least cost with a change of at most `reach` in size; and, where the mildest change is more than half of
// LIMIT or there is no end, how many links have a residual above LIMIT at the lowest best heights with that change, else -1.
#include <lemon/network_simplex.h>
#include <lemon/smart_graph.h>

#include <algorithm>
#include <cstdio>
#include <cstdlib>
#include <functional>
#include <limits>
#include <queue>
#include <utility>
#include <vector>

using lemon::SmartDigraph;
using Number = long long;

namespace {

constexpr Number FAR = std::numeric_limits<Number>::max() / 4;

struct Link {
    int tail, head;
    Number difference, weight;
};

struct Freed {
    Number reach = 0;
    std::vector<std::pair<int, int>> ends;  // of links: 0 for the tail, 1 for the head
};

struct Network {
    int vertices = 0;
    std::vector<Link> links;
    std::vector<Freed> numbers;

    int spare() const { return vertices; }
};

// Best heights of all vertices and the spare one, and best flows.
struct Settled {
    Number cost = 0;
    std::vector<Number> heights, flows;
};

bool read(const char* path, Network& network) {
    std::FILE* file = std::fopen(path, "r");
    int links = 0, numbers = 0;
    if (!file || std::fscanf(file, "%d %d %d", &network.vertices, &links, &numbers) != 3) return false;
    network.links.resize(links);
    for (Link& row : network.links)
        if (std::fscanf(file, "%d %d %lld %lld", &row.tail, &row.head, &row.difference, &row.weight) != 4) return false;
    network.numbers.resize(numbers);
    for (Freed& number : network.numbers) {
        int count = 0;
        if (std::fscanf(file, "%d %lld", &count, &number.reach) != 2) return false;
        number.ends.resize(count);
        for (auto& [link, end] : number.ends)
            if (std::fscanf(file, "%d %d", &link, &end) != 2) return false;
    }
    std::fclose(file);
    return true;
}

int& end_of(Link& link, int end) { return end == 0 ? link.tail : link.head; }

// Where the ends of a number are before it is freed.
int old_vertex(const Network& network, const Freed& number) {
    Link link = network.links[number.ends.front().first];
    return end_of(link, number.ends.front().second);
}

std::vector<Link> freed_links(const Network& network, const Freed& number) {
    std::vector<Link> links = network.links;
    for (const auto& [link, end] : number.ends) end_of(links[link], end) = network.spare();
    return links;
}

// The links with a number changed: a tail that is so much higher has a difference that is so much larger, a head the other way.
std::vector<Link> changed_links(const Network& network, const Freed& number, Number change) {
    std::vector<Link> links = network.links;
    for (const auto& [link, end] : number.ends) links[link].difference += end == 0 ? change : -change;
    return links;
}

Settled settle(const Network& network, const std::vector<Link>& links) {
    SmartDigraph graph;
    std::vector<SmartDigraph::Node> nodes;
    std::vector<SmartDigraph::Arc> arcs;
    for (int i = 0; i <= network.spare(); i++) nodes.push_back(graph.addNode());
    SmartDigraph::ArcMap<Number> lower(graph), upper(graph), cost(graph);
    for (const Link& link : links) {
        arcs.push_back(graph.addArc(nodes[link.tail], nodes[link.head]));
        lower[arcs.back()] = -link.weight;
        upper[arcs.back()] = link.weight;
        cost[arcs.back()] = -link.difference;
    }
    lemon::NetworkSimplex<SmartDigraph, Number, Number> solver(graph);
    solver.lowerMap(lower).upperMap(upper).costMap(cost);
    if (solver.run() != solver.OPTIMAL) std::exit(1);
    Settled settled{-solver.totalCost<Number>(), {}, {}};
    for (const auto& node : nodes) settled.heights.push_back(-solver.potential(node));
    for (const auto& arc : arcs) settled.flows.push_back(solver.flow(arc));
    return settled;
}

Number residual(const Link& link, const std::vector<Number>& heights) {
    return link.difference - (heights[link.head] - heights[link.tail]);
}

// How much lower each vertex may be in best heights while this one stays: the shortest paths along links with room, each as long as its
// residual is in size. FAR where nothing holds it.
std::vector<Number> falls(const Settled& settled, const std::vector<Link>& links, int from) {
    std::vector<std::vector<std::pair<int, Number>>> ways(settled.heights.size());
    for (size_t i = 0; i < links.size(); i++) {
        const Link& link = links[i];
        const Number own = residual(link, settled.heights);
        if (settled.flows[i] < link.weight) ways[link.tail].push_back({link.head, -own});
        if (settled.flows[i] > -link.weight) ways[link.head].push_back({link.tail, own});
    }
    std::vector<Number> fall(ways.size(), FAR);
    std::priority_queue<std::pair<Number, int>, std::vector<std::pair<Number, int>>, std::greater<>> next;
    next.push({fall[from] = 0, from});
    while (!next.empty()) {
        const auto [length, vertex] = next.top();
        next.pop();
        if (length > fall[vertex]) continue;
        for (const auto& [other, own] : ways[vertex]) {
            if (own < 0) std::exit(1);
            if (length + own < fall[other]) next.push({fall[other] = length + own, other});
        }
    }
    return fall;
}

// How many links have a residual above the limit at the lowest best heights.
int marks(const Network& network, const std::vector<Link>& links, Number limit) {
    Settled settled = settle(network, links);
    const std::vector<Number> fall = falls(settled, links, 0);
    for (size_t vertex = 0; vertex < fall.size(); vertex++) settled.heights[vertex] -= fall[vertex] == FAR ? 0 : fall[vertex];
    return std::count_if(links.begin(), links.end(), [&](const Link& link) { return std::abs(residual(link, settled.heights)) > limit; });
}

void print_network(const Network& network, Number limit) {
    const Number cost = settle(network, network.links).cost;
    std::printf("%lld none none %lld %d\n", cost, cost, marks(network, network.links, limit));
}

void print_freed(const Network& network, const Freed& number, Number limit) {
    const std::vector<Link> links = freed_links(network, number);
    const Settled settled = settle(network, links);
    const int old = old_vertex(network, number);
    const Number now = settled.heights[network.spare()] - settled.heights[old];
    const Number down = falls(settled, links, old)[network.spare()], up = falls(settled, links, network.spare())[old];
    if (down == FAR || up == FAR) {
        std::printf("%lld none none %lld -1\n", settled.cost, settled.cost);
        return;
    }
    const Number mildest = std::clamp(Number{0}, now - down, now + up), near = std::clamp(mildest, -number.reach, number.reach);
    const Number reached = near == mildest ? settled.cost : settle(network, changed_links(network, number, near)).cost;
    const int left = 2 * std::abs(mildest) > limit ? marks(network, changed_links(network, number, mildest), limit) : -1;
    std::printf("%lld %lld %lld %lld %d\n", settled.cost, now - down, now + up, reached, left);
}

}  // namespace

int main(int count, char** words) {
    Network network;
    if (count != 3 || !read(words[1], network)) return 2;
    const Number limit = std::atoll(words[2]);
    for (const Freed& number : network.numbers) {
        if (number.ends.empty()) print_network(network, limit);
        else print_freed(network, number, limit);
    }
    return 0;
}
