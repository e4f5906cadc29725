// The check of takes and a cut, with scratch memory, on the view that crates/bench_check makes.
#include <chrono>
#include <cstdint>
#include <cstdio>
#include <cstring>
#include <string>
#include <string_view>
#include <unordered_map>
#include <vector>

struct Name {
    uint8_t bytes[12];
    uint8_t len;
};

struct Key {
    uint8_t kind;
    Name name;
    bool operator==(const Key &other) const {
        return kind == other.kind && name.len == other.name.len && !memcmp(name.bytes, other.name.bytes, name.len);
    }
};

struct KeyHash {
    size_t operator()(const Key &key) const {
        return std::hash<std::string_view>()({(const char *)key.name.bytes, key.name.len}) * 31 + key.kind;
    }
};

struct Offer {
    uint64_t number, lots;
    Name agreement;
    Key path[4];
};

struct Room {
    Key key;
    uint64_t lots;
};

struct View {
    std::vector<Offer> offers;
    std::vector<Room> rooms;
    std::unordered_map<Key, uint32_t, KeyHash> keys;
    std::vector<uint32_t> places;                 // four an offer
    std::vector<uint32_t> members, member_starts; // the offers of each room
};

struct Take {
    uint64_t offer, lots;
};

static Key key_of(uint8_t kind, char letter, uint64_t n) {
    std::string text = letter + std::to_string(n);
    Key key{};
    key.kind = kind;
    key.name.len = text.size();
    memcpy(key.name.bytes, text.data(), text.size());
    return key;
}

// 0 is fine; else the number of the fault
static int check(const View &view, const std::vector<Take> &takes, const std::vector<Key> &cut_keys, const std::vector<uint64_t> &cut_offers, uint64_t &lots) {
    size_t n = view.offers.size(), m = view.rooms.size();
    std::vector<uint64_t> taken(n);
    size_t rest = 0;
    for (size_t i = 0; i < n; i++)
        if (rest < takes.size() && takes[rest].offer == view.offers[i].number) taken[i] = takes[rest++].lots;
    if (rest < takes.size()) return 5;
    std::vector<uint8_t> in_keys(m), in_offers(n), is_short(m);
    for (const Key &key : cut_keys) {
        auto at = view.keys.find(key);
        if (at == view.keys.end()) return 5;
        in_keys[at->second] = 1;
    }
    for (uint64_t number : cut_offers) {
        size_t low = 0, high = n;
        while (low < high) {
            size_t mid = (low + high) / 2;
            if (view.offers[mid].number < number) low = mid + 1;
            else high = mid;
        }
        if (low == n || view.offers[low].number != number) return 5;
        in_offers[low] = 1;
    }
    for (size_t i = 0; i < n; i++)
        if (view.offers[i].lots < taken[i]) return 1;
    for (size_t r = 0; r < m; r++) {
        uint64_t sum = 0;
        for (uint32_t j = view.member_starts[r]; j < view.member_starts[r + 1]; j++) sum += taken[view.members[j]];
        if (view.rooms[r].lots < sum) return 2;
    }
    for (size_t i = 0; i < n; i++) {
        uint32_t agreement = view.places[4 * i + 1];
        if (taken[i] && is_short[agreement]) return 6;
        if (taken[i] < view.offers[i].lots) is_short[agreement] = 1;
    }
    for (size_t i = 0; i < n; i++) {
        bool covered = in_offers[i];
        for (int k = 0; k < 4 && !covered; k++) covered = in_keys[view.places[4 * i + k]];
        if (!covered) return 3;
    }
    lots = 0;
    uint64_t room = 0;
    for (size_t i = 0; i < n; i++) lots += taken[i];
    for (size_t r = 0; r < m; r++) room += in_keys[r] ? view.rooms[r].lots : 0;
    for (size_t i = 0; i < n; i++) room += in_offers[i] ? view.offers[i].lots : 0;
    return lots == room ? 0 : 4;
}

int main() {
    const uint64_t offers = 4096, agreements = 512;
    View view;
    std::vector<Take> takes;
    std::vector<Key> cut_keys;
    std::vector<uint64_t> cut_offers, taken_of(agreements);
    uint64_t seed = 1;
    for (uint64_t i = 0; i < offers; i++) {
        seed = (seed * 1103515245 + 12345) % 2147483648;
        uint64_t agreement = seed / 65536 % agreements, lots = 1 + seed % 1000;
        Offer offer{};
        offer.number = i + 1;
        offer.lots = lots;
        offer.path[0] = key_of(0, 'E', agreement % 32);
        offer.path[1] = key_of(1, 'P', agreement);
        offer.path[2] = key_of(2, 'A', agreement % 256);
        offer.path[3] = key_of(3, 'C', agreement % 16);
        offer.agreement = offer.path[1].name;
        view.offers.push_back(offer);
        taken_of[agreement] += lots;
        takes.push_back({i + 1, lots});
        if (agreement % 2) cut_offers.push_back(i + 1);
    }
    for (Offer &offer : view.offers)
        for (Key &key : offer.path) {
            auto [at, added] = view.keys.try_emplace(key, view.rooms.size());
            if (added) view.rooms.push_back({key, 1000000000});
            view.places.push_back(at->second);
        }
    std::vector<std::vector<uint32_t>> lists(view.rooms.size());
    for (uint32_t i = 0; i < offers; i++)
        for (int k = 0; k < 4; k++) lists[view.places[4 * i + k]].push_back(i);
    for (auto &list : lists) {
        view.member_starts.push_back(view.members.size());
        view.members.insert(view.members.end(), list.begin(), list.end());
    }
    view.member_starts.push_back(view.members.size());
    for (uint64_t a = 0; a < agreements; a += 2) {
        auto at = view.keys.find(key_of(1, 'P', a));
        if (at == view.keys.end()) continue;
        view.rooms[at->second].lots = taken_of[a];
        cut_keys.push_back(at->first);
    }
    const int turns = 2000;
    uint64_t sum = 0, lots = 0;
    double best = 1e9;
    for (int t = 0; t < turns; t++) {
        auto start = std::chrono::steady_clock::now();
        int fault = check(view, takes, cut_keys, cut_offers, lots);
        double us = std::chrono::duration<double, std::micro>(std::chrono::steady_clock::now() - start).count();
        if (us < best) best = us;
        sum += fault ? 0 : lots;
    }
    printf("lots %llu rooms %zu least %.1f us\n", (unsigned long long)(sum / turns), view.rooms.size(), best);
}
