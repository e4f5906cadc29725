// Small random views, and what is due of each by trying all takes one after another: brute COUNT SEED VIEWS DUE
//     g++ -O2 -std=c++17 -o brute bench/flow/brute.cpp && ./brute 100000 1 views due
//     out/flow_bench takes views | grep -v ^CUT | cmp - due         in the folder where flow/run has built it
//
// VIEWS gets the views, parted by empty lines; DUE for each the lines VIEW and TAKE that the program of main.rt.txt prints after the word
// `takes`, without CUT. A view has one to five offers of one to four lots, at most three executing firms and four accounts of at most three
// carrying firms, of which some have guarantors.
#include <algorithm>
#include <array>
#include <cstdio>
#include <cstdlib>
#include <random>
#include <string>
#include <utility>
#include <vector>

using Key = std::pair<int, int>;    // kind, name

struct Offer {
    int lots;
    std::vector<Key> path;
};

struct View {
    std::vector<Offer> offers;
    std::vector<std::pair<Key, int>> rooms;

    int *room(Key key) {
        for (auto &room : rooms)
            if (room.first == key) return &room.second;
        return nullptr;
    }
};

const std::array<const char *, 5> KINDS{"exec", "agr", "acct", "carry", "guar"};

View made(std::mt19937_64 &dice) {
    auto below = [&](int bound) { return (int)(dice() % bound); };
    int firms = 1 + below(3), accounts = 1 + below(4), carriers = 1 + below(3);
    std::vector<int> carrier(accounts), guarantor(carriers);
    for (int &it : carrier) it = below(carriers);
    for (int &it : guarantor) it = below(3) - 1;
    View view;
    for (int n = 1 + below(5); n > 0; n--) {
        int firm = below(firms), account = below(accounts);
        Offer offer{1 + below(4), {{0, firm}, {1, firm * 4 + account}, {2, account}, {3, carrier[account]}}};
        if (guarantor[carrier[account]] >= 0) offer.path.push_back({4, guarantor[carrier[account]]});
        for (Key key : offer.path)
            if (!view.room(key)) view.rooms.push_back({key, below(key.first >= 3 ? 13 : 9)});
        view.offers.push_back(offer);
    }
    return view;
}

// Tries all takes of the offers from a place on, the most of the oldest first, so that of equal sums the first one found is due.
void try_all(View &view, size_t place, int sum, std::vector<int> &takes, int &most, std::vector<int> &best) {
    if (place == view.offers.size()) {
        if (sum > most) most = sum, best = takes;
        return;
    }
    Offer &offer = view.offers[place];
    int top = offer.lots;
    for (Key key : offer.path) top = std::min(top, *view.room(key));
    for (int lots = top; lots >= 0; lots--) {
        for (Key key : offer.path) *view.room(key) -= lots;
        takes[place] = lots;
        try_all(view, place + 1, sum + lots, takes, most, best);
        for (Key key : offer.path) *view.room(key) += lots;
    }
}

int main(int count, char **words) {
    if (count != 5) return 2;
    std::mt19937_64 dice(std::stoull(words[2]));
    FILE *views = std::fopen(words[3], "w"), *due = std::fopen(words[4], "w");
    if (!views || !due) return 1;
    for (int left = std::stoi(words[1]); left > 0; left--) {
        View view = made(dice);
        for (size_t n = 0; n < view.offers.size(); n++) {
            std::fprintf(views, "offer %zu %d", n + 1, view.offers[n].lots);
            for (Key key : view.offers[n].path) std::fprintf(views, " %d", key.second);
            std::fprintf(views, "\n");
        }
        for (auto &room : view.rooms) std::fprintf(views, "room %s %d %d\n", KINDS[room.first.first], room.first.second, room.second);
        std::fprintf(views, "\n");
        std::vector<int> takes(view.offers.size()), best = takes;
        int most = -1;
        try_all(view, 0, 0, takes, most, best);
        std::fprintf(due, "VIEW %d\n", most);
        for (size_t n = 0; n < best.size(); n++)
            if (best[n] > 0) std::fprintf(due, "TAKE %zu %d\n", n + 1, best[n]);
    }
    std::fclose(views), std::fclose(due);
}
