// Solves a network by LEMON's NetworkSimplex or CostScaling and prints the cost; or finds the greatest feasible threshold of a
// network of rules by a binary search over the scores of its pairs, with a network built anew and Preflow at each step, and
// prints that. The time of the solve or search alone goes to standard error.
// usage: lemon simplex|scaling|threshold < NETWORK
#include <algorithm>
#include <chrono>
#include <cstdio>
#include <cstring>
#include <ctime>
#include <vector>
#include <lemon/cost_scaling.h>
#include <lemon/network_simplex.h>
#include <lemon/preflow.h>
#include <lemon/smart_graph.h>
#include <lemon/static_graph.h>

using Graph = lemon::StaticDigraph;

template <class Solver>
static int solve(const Graph &graph, const std::vector<long long> (&arcs)[3]) {
    Graph::ArcMap<long long> floor(graph), room(graph), cost(graph);
    for (Graph::ArcIt a(graph); a != lemon::INVALID; ++a) {
        floor[a] = arcs[0][graph.id(a)];
        room[a] = arcs[1][graph.id(a)];
        cost[a] = arcs[2][graph.id(a)];
    }
    auto start = std::chrono::steady_clock::now();
    Solver solver(graph);
    auto status = solver.lowerMap(floor).upperMap(room).costMap(cost).run();
    std::chrono::duration<double> taken = std::chrono::steady_clock::now() - start;
    if (status == Solver::OPTIMAL) {
        std::printf("%lld\n", static_cast<long long>(solver.template totalCost<long long>()));
    } else {
        std::printf("unsat\n");
    }
    std::fprintf(stderr, "%.4f\n", taken.count());
    return 0;
}

struct Row { int tail, head, place; long long floor, room, cost; };

// whether some circulation keeps all bounds where the first pairs with a greater cost are left out, unless they are locked
static bool fits(int nodes, const std::vector<Row> &rows, size_t pairs, long long most) {
    lemon::SmartDigraph graph;
    graph.reserveNode(nodes + 2);
    graph.reserveArc(rows.size() + nodes);
    for (int v = 0; v < nodes + 2; v++) graph.addNode();
    lemon::SmartDigraph::ArcMap<long long> room(graph);
    std::vector<long long> excess(nodes);
    for (size_t a = 0; a < rows.size(); a++) {
        const Row &row = rows[a];
        if (a < pairs && row.floor == 0 && row.cost > most) continue;
        room[graph.addArc(graph.nodeFromId(row.tail), graph.nodeFromId(row.head))] = row.room - row.floor;
        excess[row.head] += row.floor;
        excess[row.tail] -= row.floor;
    }
    auto source = graph.nodeFromId(nodes), target = graph.nodeFromId(nodes + 1);
    long long all = 0;
    for (int v = 0; v < nodes; v++) {
        if (excess[v] > 0) room[graph.addArc(source, graph.nodeFromId(v))] = excess[v], all += excess[v];
        if (excess[v] < 0) room[graph.addArc(graph.nodeFromId(v), target)] = -excess[v];
    }
    lemon::Preflow<lemon::SmartDigraph, lemon::SmartDigraph::ArcMap<long long>> flow(graph, room, source, target);
    flow.runMinCut();
    return flow.flowValue() == all;
}

static int threshold(int nodes, const std::vector<Row> &rows) {
    size_t pairs = 0;
    while (pairs < rows.size() && rows[pairs].tail != nodes - 1) pairs++;
    auto start = std::chrono::steady_clock::now();
    auto used = std::clock();
    std::vector<long long> costs;
    for (size_t a = 0; a < pairs; a++)
        if (rows[a].floor == 0) costs.push_back(rows[a].cost);
    std::sort(costs.begin(), costs.end());
    costs.erase(std::unique(costs.begin(), costs.end()), costs.end());
    size_t first = 0, last = costs.size();  // the least cost at which all fits lies between
    while (first < last) {
        size_t middle = (first + last) / 2;
        if (fits(nodes, rows, pairs, costs[middle])) last = middle;
        else first = middle + 1;
    }
    std::chrono::duration<double> taken = std::chrono::steady_clock::now() - start;
    if (first == costs.size()) std::printf("unsat\n");
    else std::printf("%lld\n", -costs[first]);
    std::fprintf(stderr, "%.4f %.4f\n", taken.count(), double(std::clock() - used) / CLOCKS_PER_SEC);
    return 0;
}

int main(int count, char **words) {
    int nodes, size;
    if (count != 2 || std::scanf("%d %d", &nodes, &size) != 2) return 2;
    std::vector<Row> rows(size);
    for (auto &row : rows)
        if (std::scanf("%d %d %lld %lld %lld", &row.tail, &row.head, &row.floor, &row.room, &row.cost) != 5) return 2;
    if (std::strcmp(words[1], "threshold") == 0) return threshold(nodes, rows);
    // a static graph wants its arcs in the order of their tails
    std::vector<std::vector<int>> by_tail(nodes);
    for (int a = 0; a < size; a++) by_tail[rows[a].tail].push_back(a);
    std::vector<std::pair<int, int>> ends;
    std::vector<long long> arcs[3];
    for (auto &list : by_tail)
        for (int a : list) {
            ends.emplace_back(rows[a].tail, rows[a].head);
            arcs[0].push_back(rows[a].floor);
            arcs[1].push_back(rows[a].room);
            arcs[2].push_back(rows[a].cost);
        }
    Graph graph;
    graph.build(nodes, ends.begin(), ends.end());
    if (std::strcmp(words[1], "simplex") == 0)
        return solve<lemon::NetworkSimplex<Graph, long long>>(graph, arcs);
    return solve<lemon::CostScaling<Graph, long long>>(graph, arcs);
}
