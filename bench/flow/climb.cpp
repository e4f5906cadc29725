// Climbs against the choice of the oldest: views of 4,096 offers for which it looks at ever more ends.
//     g++ -O2 -std=c++17 -o climb bench/flow/climb.cpp && ./climb FOLDER COUNT TRIES SEED
//     ./climb looks VIEW..
//
// Each of COUNT climbs begins with a view by dice, and changes one of its numbers at a time, TRIES times: how many firms, accounts, carrying firms and
// guarantors there are, how many lots an offer has, how narrow the rooms of each kind are, and in which order the offers come. A change stays if
// the choice looks at more ends. The last view of each climb is written to FOLDER, and a line says how many ends that were. What is counted is
// the same pass as gu_flow's, over a flow that begins with each offer's own way, as gu_flow's does, and is then Dinic's, without a surge:
// nothing of it is timed here. `looks` says of each view how many ends the searches for the greatest flow look at, and how many the choice's.
#include <algorithm>
#include <array>
#include <cmath>
#include <cstdint>
#include <cstdio>
#include <fstream>
#include <map>
#include <random>
#include <sstream>
#include <string>
#include <vector>

using std::size_t;
using Random = std::mt19937_64;

constexpr int OFFERS = 4096;
const std::array<const char *, 5> KINDS{"exec", "agr", "acct", "carry", "guar"};

struct Offer {
    long lots;
    std::array<int, 5> names;   // of the keys by kind; -1 for no guarantor
};

struct View {
    std::vector<Offer> offers;
    std::vector<std::array<long, 3>> rooms;     // kind, name, lots, in the order of first mention
};

// The numbers by which a view is made.
struct Numbers {
    int firms, accounts, carriers, guarantors;
    long lots;
    std::array<double, 5> least, more;  // the room of a key: the least part of the lots under it, and up to so much more
    int order;                          // by dice, by firm, by account, by firm and the last account first
    std::uint64_t seed;
};

int between(Random &dice, int low, int high) { return std::uniform_int_distribution<int>(low, high)(dice); }
double part(Random &dice) { return std::uniform_real_distribution<double>(0, 1)(dice); }

// A number up to a bound, the small ones as likely as the large ones.
int some(Random &dice, int most) { return std::max(1, (int)std::exp2(part(dice) * std::log2(most + 0.99))); }

Numbers begun(Random &dice) {
    Numbers it{some(dice, 1024), some(dice, 2048), some(dice, 256), some(dice, 64), 1L << between(dice, 0, 19), {}, {}, between(dice, 0, 3), dice()};
    for (int kind = 0; kind < 5; kind++) it.least[kind] = part(dice), it.more[kind] = part(dice);
    return it;
}

Numbers changed(Numbers it, Random &dice) {
    auto moved = [&](int number, int most) { return std::clamp((int)(number * (0.5 + 1.5 * part(dice)) + 0.5), 1, most); };
    int kind = between(dice, 0, 4);
    switch (between(dice, 0, 8)) {
        case 0: it.firms = moved(it.firms, 1024); break;
        case 1: it.accounts = moved(it.accounts, 2048); break;
        case 2: it.carriers = moved(it.carriers, 256); break;
        case 3: it.guarantors = moved(it.guarantors, 64); break;
        case 4: it.lots = std::clamp(it.lots * (between(dice, 0, 1) ? 2 : 1) / (between(dice, 0, 1) ? 2 : 1), 1L, 1L << 19); break;
        case 5: it.least[kind] = std::clamp(it.least[kind] + 0.4 * (part(dice) - 0.5), 0.0, 1.2); break;
        case 6: it.more[kind] = std::clamp(it.more[kind] + 0.4 * (part(dice) - 0.5), 0.0, 1.0); break;
        case 7: it.order = between(dice, 0, 3); break;
        default: it.seed = dice();
    }
    return it;
}

View made(const Numbers &it) {
    Random dice(it.seed);
    View view;
    for (int n = 0; n < OFFERS; n++) {
        int firm = between(dice, 0, it.firms - 1), account = between(dice, 0, it.accounts - 1), carrier = account % it.carriers;
        int guarantor = carrier % 3 < 2 && it.guarantors > 1 ? carrier % it.guarantors : -1;
        view.offers.push_back({std::uniform_int_distribution<long>(1, it.lots)(dice), {firm, firm * 2048 + account, account, carrier, guarantor}});
    }
    if (it.order > 0)
        std::stable_sort(view.offers.begin(), view.offers.end(), [&](const Offer &a, const Offer &b) {
            if (it.order == 2) return a.names[2] < b.names[2];
            if (a.names[0] != b.names[0]) return a.names[0] < b.names[0];
            return it.order == 3 && a.names[2] > b.names[2];
        });
    std::map<std::pair<int, int>, long> under;
    std::vector<std::pair<int, int>> keys;
    for (auto &offer : view.offers)
        for (int kind = 0; kind < 5; kind++)
            if (offer.names[kind] >= 0) {
                auto [place, is_new] = under.try_emplace({kind, offer.names[kind]}, 0);
                place->second += offer.lots;
                if (is_new) keys.push_back(place->first);
            }
    for (auto &key : keys) {
        double share = it.least[key.first] + it.more[key.first] * part(dice);
        view.rooms.push_back({key.first, key.second, std::min(1'000'000'000L, (long)(share * under[key]))});
    }
    return view;
}

// The network of a view: an arc for each room, and the ends at each node.
struct Network {
    std::vector<int> from, to;
    std::vector<long> room, flow, least;
    std::vector<std::vector<int>> ends;
    long looked = 0, sought = 0;

    int other(int end) const { return end % 2 ? from[end / 2] : to[end / 2]; }
    long out(int end) const { return end % 2 ? flow[end / 2] - least[end / 2] : room[end / 2] - flow[end / 2]; }
    void send(int end, long lots) { flow[end / 2] += end % 2 ? -lots : lots; }
};

struct Choice {
    const View &view;
    Network net;
    std::map<std::pair<int, int>, int> places;
    std::vector<int> region, level, at;

    explicit Choice(const View &it) : view(it) {
        int arcs = view.rooms.size();
        for (int k = 0; k < arcs; k++) places[{(int)view.rooms[k][0], (int)view.rooms[k][1]}] = k;
        net.from.resize(arcs), net.to.resize(arcs), net.room.resize(arcs), net.flow.assign(arcs, 0), net.least.assign(arcs, 0);
        std::vector<long> asked(arcs);
        for (auto &offer : view.offers) asked[place(offer, 1)] += offer.lots;
        for (auto &offer : view.offers) {
            int exec = place(offer, 0), agr = place(offer, 1), acct = place(offer, 2), carry = place(offer, 3), guar = offer.names[4] < 0 ? -1 : place(offer, 4);
            join(exec, 0, exec + 2), join(agr, exec + 2, acct + 2), join(acct, acct + 2, carry + 2), join(carry, carry + 2, guar < 0 ? 1 : guar + 2);
            if (guar >= 0) join(guar, guar + 2, 1);
        }
        for (int k = 0; k < arcs; k++) net.room[k] = view.rooms[k][0] == 1 ? std::min(view.rooms[k][2], asked[k]) : view.rooms[k][2];
        net.ends.resize(arcs + 2);
        for (int k = arcs - 1; k >= 0; k--) net.ends[net.to[k]].push_back(2 * k + 1), net.ends[net.from[k]].push_back(2 * k);
        region.assign(arcs + 2, 0);
    }

    int place(const Offer &offer, int kind) { return places[{kind, offer.names[kind]}]; }
    void join(int arc, int from, int to) { net.from[arc] = from, net.to[arc] = to; }

    long push(int node, long most) {
        if (node == 1) return most;
        for (; at[node] < (int)net.ends[node].size(); at[node]++) {
            int end = net.ends[node][at[node]], other = net.other(end);
            if (level[other] != level[node] + 1 || net.out(end) == 0) continue;
            if (long lots = push(other, std::min(most, net.out(end)))) {
                net.send(end, lots);
                return lots;
            }
        }
        return 0;
    }

    // Gives each offer, the oldest first, as many lots as its own way has room for.
    void begin() {
        for (auto &offer : view.offers) {
            long lots = offer.lots;
            for (int kind = 0; kind < 5; kind++)
                if (offer.names[kind] >= 0) lots = std::min(lots, net.out(2 * place(offer, kind)));
            for (int kind = 0; kind < 5; kind++)
                if (offer.names[kind] >= 0) net.send(2 * place(offer, kind), lots);
        }
    }

    // Labels what a search from the source reaches until it reaches the sink. Whether it does.
    bool seek() {
        level.assign(net.ends.size(), 0), at.assign(net.ends.size(), 0);
        std::vector<int> queue{0};
        level[0] = 1;
        for (size_t done = 0; done < queue.size(); done++)
            for (int end : net.ends[queue[done]]) {
                net.sought++;
                if (int other = net.other(end); !level[other] && net.out(end) > 0) {
                    level[other] = level[queue[done]] + 1, queue.push_back(other);
                    if (other == 1) return true;
                }
            }
        return false;
    }

    void fill() {
        begin();
        while (seek())
            while (push(0, 1L << 60) > 0) {}
    }

    // A search from one node, a few ends at a time: forward, or back to where lots can be brought from.
    struct Search {
        std::vector<int> queue;
        size_t done = 0, next = 0;
    };
    std::vector<int> via[2];
    std::vector<char> has[2];

    // One turn, for up to 16 ends of a node, until one reaches a new node: that node if the other search has it, -1 for none, -2 if there is
    // nothing more to look at.
    int look(Search &search, int side) {
        if (search.done == search.queue.size()) return -2;
        int node = search.queue[search.done];
        auto &ends = net.ends[node];
        for (int turn = 0; turn < 16 && search.next < ends.size(); turn++) {
            int end = ends[search.next++], other = net.other(end);
            net.looked++;
            if (has[side][other] || region[other] != region[node] || net.out(side ? end ^ 1 : end) == 0) continue;
            has[side][other] = 1, via[side][other] = end, search.queue.push_back(other);
            return has[1 - side][other] ? other : -1;
        }
        if (search.next < ends.size()) return -1;
        search.next = 0, search.done++;
        return search.done == search.queue.size() ? -2 : -1;
    }

    // Raises what an arc carries by one way round it, or makes a region. Whether it did the first.
    bool raise(int arc, long goal, int &regions) {
        Search searches[2];
        int begin[2] = {net.to[arc], net.from[arc]}, met = -1, ended = -1;
        for (int side = 0; side < 2; side++) searches[side].queue = {begin[side]}, has[side][begin[side]] = 1;
        for (int side = 0; met < 0 && ended < 0; side = 1 - side) {
            int found = look(searches[side], side);
            if (found >= 0) met = found;
            if (found == -2) ended = side;
        }
        if (met >= 0) {
            long lots = goal - net.flow[arc];
            std::vector<int> way;
            for (int side = 0; side < 2; side++)
                for (int node = met; node != begin[side]; node = net.other(via[side][node] ^ 1)) way.push_back(side ? via[side][node] ^ 1 : via[side][node]);
            for (int end : way) lots = std::min(lots, net.out(end));
            for (int end : way) net.send(end, lots);
            net.flow[arc] += lots, net.least[arc] = net.flow[arc];
        } else {
            regions++;
            for (int node : searches[ended].queue) region[node] = regions;
        }
        for (int side = 0; side < 2; side++)
            for (int node : searches[side].queue) has[side][node] = 0;
        return met >= 0;
    }

    // How many ends are looked at.
    long cost() {
        fill();
        std::vector<long> asked(net.from.size());
        int regions = 0;
        for (int side = 0; side < 2; side++) via[side].assign(net.ends.size(), 0), has[side].assign(net.ends.size(), 0);
        for (auto &offer : view.offers) {
            int arc = place(offer, 1);
            asked[arc] += offer.lots;
            long goal = std::min(asked[arc], net.room[arc]);
            net.least[arc] = std::min(net.flow[arc], goal);
            while (net.least[arc] < goal && region[net.from[arc]] == region[net.to[arc]] && raise(arc, goal, regions)) {}
        }
        return net.looked;
    }
};

long cost_of(const Numbers &it) {
    View view = made(it);
    return Choice(view).cost();
}

void write(const View &view, const std::string &path) {
    FILE *file = std::fopen(path.c_str(), "w");
    if (!file) std::exit(1);
    for (size_t n = 0; n < view.offers.size(); n++) {
        auto &offer = view.offers[n];
        std::fprintf(file, "offer %zu %ld", n + 1, offer.lots);
        for (int name : offer.names)
            if (name >= 0) std::fprintf(file, " %d", name);
        std::fprintf(file, "\n");
    }
    for (auto &room : view.rooms) std::fprintf(file, "room %s %ld %ld\n", KINDS[room[0]], room[1], room[2]);
    std::fclose(file);
}

View view_of(const std::string &path) {
    View view;
    std::ifstream file(path);
    for (std::string line, word; std::getline(file, line);) {
        std::istringstream words(line);
        if (words >> word; word == "offer") {
            Offer offer{0, {-1, -1, -1, -1, -1}};
            words >> word >> offer.lots;
            for (int kind = 0; kind < 5 && words >> offer.names[kind]; kind++) {}
            if (words.fail()) offer.names[4] = -1;
            view.offers.push_back(offer);
        } else if (word == "room") {
            long name, lots;
            words >> word >> name >> lots;
            view.rooms.push_back({std::find(KINDS.begin(), KINDS.end(), word) - KINDS.begin(), name, lots});
        }
    }
    return view;
}

int main(int count, char **words) {
    if (count > 2 && std::string(words[1]) == "looks") {
        for (int n = 2; n < count; n++) {
            View view = view_of(words[n]);
            Choice choice(view);
            long looked = choice.cost();
            std::printf("%s %ld ends for the greatest flow, %ld for the choice\n", words[n], choice.net.sought, looked);
        }
        return 0;
    }
    if (count != 5) return 2;
    int climbs = std::stoi(words[2]), tries = std::stoi(words[3]);
    for (int climb = 0; climb < climbs; climb++) {
        Random dice(std::stoull(words[4]) * 1'000'003 + climb);
        Numbers best = begun(dice);
        long most = cost_of(best), first = most;
        for (int turn = 0; turn < tries; turn++) {
            Numbers next = changed(best, dice);
            if (long cost = cost_of(next); cost >= most) best = next, most = cost;
        }
        std::string path = std::string(words[1]) + "/climbed." + std::to_string(climb);
        write(made(best), path);
        std::printf("%s %ld ends, %ld at first; %d firms, %d accounts, %d carrying firms, %d guarantors\n", path.c_str(), most, first, best.firms, best.accounts, best.carriers,
                    best.guarantors);
        std::fflush(stdout);
    }
}
