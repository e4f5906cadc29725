// The options of load.cpp, and the requests of one connection, which are made before the run. Included, not built.
#pragma once
#include "fix.h"

#include <cstdio>
#include <string>
#include <utility>
#include <vector>

using fix::Text;

struct Options {
  int port = 0;
  size_t connections = 1, messages = 10'000, window = 64, carriers = 0, threads = 0;
  bool day_mix = false, cross = false, print = false;
  std::vector<std::string> firms{"E1", "E2"}, accounts{"A1"};
  std::string carrier = "C1", symbol = "XF6", day = "20260105", ids;
  int64_t timeout_ms = 60'000, quiet_ms = 1'000, poke_ms = 200;
};
inline Options options;


// The requests of one connection, made before the run: the bytes of each after its 34.
enum Kind : uint8_t { REPORT, GIVE_UP, POSITIONS, CLAIM, KINDS };
constexpr Text TYPE[KINDS] = {"AE", "J", "AN", "AT"};
struct Plan {
  struct Request {
    size_t end;
    Kind kind;
    uint8_t lines;
  };
  std::string bytes;
  std::vector<Request> requests;

  Text tail(size_t i) const {
    const size_t begin = i ? requests[i - 1].end : 0;
    return Text(bytes).substr(begin, requests[i].end - begin);
  }
};

// Returns a number that depends only on these two, so both sides of a trade know it.
inline uint64_t mixed(uint64_t a, uint64_t b) {
  uint64_t z = (a + 1) * 0x9E3779B97F4A7C15u + b * 0xD1B54A32D192ED03u;
  z = (z ^ (z >> 30)) * 0xBF58476D1CE4E5B9u;
  z = (z ^ (z >> 27)) * 0x94D049BB133111EBu;
  return z ^ (z >> 31);
}

class Planner {
  Plan plan;
  const size_t self;
  const std::string firm, stamp;

  std::string id(char letter, uint64_t a, uint64_t b) const { return letter + options.ids + std::to_string(a) + '-' + std::to_string(b); }
  void field(Text tag, Text value) { plan.bytes.append(tag).append(value).push_back(fix::SOH); }
  void begin() { field("52=", stamp); }
  void end(Kind kind, size_t lines = 0) { plan.requests.push_back({plan.bytes.size(), kind, uint8_t(lines)}); }
  std::string own_account() const { return 'H' + firm.substr(1); }
  static unsigned lots(uint64_t random) { return 8 + unsigned(random % 93); }

  // One side of trade `trade` of `pair`; ids end in the request's index, by which its answer is found.
  void report(size_t pair, uint64_t trade, bool sell) {
    const uint64_t random = mixed(pair, trade);
    char price[16];
    snprintf(price, sizeof price, "%u.%02u", unsigned(random >> 32) % 1000 + 1, unsigned(random >> 16) % 100);
    begin();
    field("571=", id('R', self, plan.requests.size()));
    field("880=", id('M', pair, trade));
    field("55=", options.symbol);
    field("32=", std::to_string(lots(random)));
    field("31=", price);
    field("75=", options.day);
    field("552=", "1");
    field("54=", sell ? "2" : "1");
    field("1=", own_account());
    end(REPORT);
  }

  // Gives up all lots of the report `of`, or nearly all, in 1 to 4 lines.
  void give_up(uint64_t trade, size_t of) {
    const uint64_t random = mixed(self, trade);
    const size_t lines = 1 + size_t(random >> 8) % 4;
    const unsigned all = lots(random) - unsigned(random >> 12) % 2, each = unsigned(all / lines);
    begin();
    field("70=", id('L', self, plan.requests.size()));
    field("71=", "0");
    field("53=", std::to_string(all));
    field("124=", "1");
    field("17=", id('R', self, of));
    field("78=", std::to_string(lines));
    for (size_t i = 0; i < lines; i++) {
      field("79=", options.accounts[i % options.accounts.size()]);
      field("80=", std::to_string(i ? each : unsigned(all - each * (lines - 1))));
    }
    end(GIVE_UP, lines);
  }

  void positions() {
    begin();
    field("710=", id('Q', self, plan.requests.size()));
    field("724=", "0");
    field("1=", own_account());
    end(POSITIONS);
  }

public:
  Planner(size_t self, std::string firm, Text stamp) : self(self), firm(std::move(firm)), stamp(stamp) {}

  // Returns reports of both sides of each trade; with --cross only one side, and the other is the next connection's.
  Plan reports(size_t count, bool has_partner) {
    const size_t pair = has_partner ? self / 2 * 2 : self;
    for (size_t i = 0; i < count; i++)
      report(pair, has_partner ? i : i / 2, has_partner ? self % 2 : i % 2);
    return std::move(plan);
  }

  // Returns trades, of which three in four are given up; after every 16th a question for the positions.
  Plan day(size_t count) {
    for (uint64_t trade = 0; plan.requests.size() < count; trade++) {
      const size_t first = plan.requests.size();
      if (first + 1 < count) {
        report(self, trade, false);
        report(self, trade, true);
        if (trade % 4 != 3 && plan.requests.size() < count)
          give_up(trade, first);
      }
      if ((trade % 16 == 15 || first + 1 == count) && plan.requests.size() < count)
        positions();
    }
    return std::move(plan);
  }
};
