// Times LEMON's preflow-push on the views in files: from offers whose keys' rooms are known to the greatest flow.
#include <lemon/preflow.h>
#include <lemon/smart_graph.h>

#include <algorithm>
#include <array>
#include <chrono>
#include <cstdio>
#include <cstring>
#include <map>
#include <utility>
#include <vector>

using namespace lemon;
using Clock = std::chrono::steady_clock;

// The rooms of an offer's keys, in the order of its path; the fifth is -1 where its carrying firm has no guarantor.
struct Offer {
    long lots;
    std::array<int, 5> rooms;
};

struct View {
    std::vector<Offer> offers;
    std::vector<long> rooms;
    std::vector<bool> is_agreement;
};

static int kind_of(const char *word) {
    return !strcmp(word, "exec") ? 0 : !strcmp(word, "agr") ? 1 : !strcmp(word, "acct") ? 2 : !strcmp(word, "carry") ? 3 : 4;
}

static View read(const char *path) {
    View view;
    std::vector<std::vector<long>> names;
    std::map<std::pair<int, long>, int> places;
    FILE *in = fopen(path, "r");
    char line[256], kind[16];
    while (in && fgets(line, sizeof line, in)) {
        long number, lots, name, keys[5];
        int words = sscanf(line, "offer%ld%ld%ld%ld%ld%ld%ld", &number, &lots, &keys[0], &keys[1], &keys[2], &keys[3], &keys[4]);
        if (words >= 6) {
            view.offers.push_back({lots, {}});
            names.emplace_back(keys, keys + words - 2);
        } else if (sscanf(line, "room%15s%ld%ld", kind, &name, &lots) == 3) {
            places[{kind_of(kind), name}] = view.rooms.size();
            view.rooms.push_back(lots);
            view.is_agreement.push_back(kind_of(kind) == 1);
        }
    }
    if (in) fclose(in);
    for (size_t i = 0; i < names.size(); i++)
        for (int k = 0; k < 5; k++) view.offers[i].rooms[k] = k < (int)names[i].size() ? places[{k, names[i][k]}] : -1;
    return view;
}

static long greatest(const View &view) {
    size_t count = view.rooms.size();
    std::vector<std::pair<int, int>> ends(count);
    std::vector<long> capacity(view.rooms);
    std::vector<long> supply(count, 0);
    for (const Offer &offer : view.offers) {
        auto [e, a, c, d, g] = offer.rooms;
        ends[e] = {0, e + 2};
        ends[a] = {e + 2, c + 2};
        ends[c] = {c + 2, d + 2};
        ends[d] = {d + 2, g < 0 ? 1 : g + 2};
        if (g >= 0) ends[g] = {g + 2, 1};
        supply[a] += offer.lots;
    }
    SmartDigraph graph;
    graph.reserveNode(count + 2);
    graph.reserveArc(count);
    std::vector<SmartDigraph::Node> nodes(count + 2);
    for (auto &node : nodes) node = graph.addNode();
    SmartDigraph::ArcMap<long> limits(graph);
    for (size_t i = 0; i < count; i++) {
        auto arc = graph.addArc(nodes[ends[i].first], nodes[ends[i].second]);
        limits[arc] = view.is_agreement[i] ? std::min(capacity[i], supply[i]) : capacity[i];
    }
    Preflow<SmartDigraph, SmartDigraph::ArcMap<long>> flow(graph, limits, nodes[0], nodes[1]);
    flow.run();
    return flow.flowValue();
}

int main(int count, char **paths) {
    for (int i = 1; i < count; i++) {
        View view = read(paths[i]);
        double least = 1e12;
        long lots = 0;
        for (int turn = 0; turn < 15; turn++) {
            auto start = Clock::now();
            lots = greatest(view);
            least = std::min(least, std::chrono::duration<double, std::micro>(Clock::now() - start).count());
        }
        printf("%s %.0f %ld\n", paths[i], least, lots);
    }
}
