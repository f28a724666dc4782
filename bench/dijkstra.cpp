// The searches that `searches.py` compares with: Dijkstra's algorithm with a heap from each node, over adjacency arrays.
//
// Reads the number of nodes and of links, and then each link's beginning, end and metric, from standard input. Writes a
// sum of distances, so that no search is left out.
#include <cstdint>
#include <cstdio>
#include <functional>
#include <queue>
#include <utility>
#include <vector>

struct Edge {
    int to;
    std::uint32_t metric;
};

const std::uint64_t FAR = std::uint64_t{1} << 62;

__attribute__((noinline)) static void search(int source, const std::vector<int>& starts, const std::vector<Edge>& edges,
                                             std::vector<std::uint64_t>& cells) {
    using Entry = std::pair<std::uint64_t, int>;
    std::priority_queue<Entry, std::vector<Entry>, std::greater<Entry>> queue;
    cells.assign(starts.size() - 1, FAR);
    cells[source] = 0;
    queue.push({0, source});
    while (!queue.empty()) {
        auto [cell, node] = queue.top();
        queue.pop();
        if (cell != cells[node]) continue;
        for (int i = starts[node]; i < starts[node + 1]; i++) {
            std::uint64_t over = cell + edges[i].metric;
            if (over < cells[edges[i].to]) {
                cells[edges[i].to] = over;
                queue.push({over, edges[i].to});
            }
        }
    }
}

int main() {
    int nodes, links;
    if (std::scanf("%d %d", &nodes, &links) != 2) return 1;
    std::vector<std::vector<Edge>> lists(nodes);
    for (int i = 0; i < links; i++) {
        int from, to;
        unsigned metric;
        if (std::scanf("%d %d %u", &from, &to, &metric) != 3) return 1;
        lists[from].push_back({to, metric});
    }
    std::vector<int> starts{0};
    std::vector<Edge> edges;
    for (auto& list : lists) {
        edges.insert(edges.end(), list.begin(), list.end());
        starts.push_back(static_cast<int>(edges.size()));
    }
    std::uint64_t sum = 0;
    std::vector<std::uint64_t> cells;
    for (int source = 0; source < nodes; source++) {
        search(source, starts, edges, cells);
        for (auto cell : cells) sum += cell;
    }
    std::printf("%llu\n", static_cast<unsigned long long>(sum));
}
