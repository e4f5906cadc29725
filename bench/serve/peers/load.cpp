// A load generator for a FIX 5.0 SP2 acceptor of the house's profile: it logs on over N connections to 127.0.0.1, sends messages of a mix with a window of
// unanswered requests, checks and counts what comes, logs out, and prints one line of JSON. The loop is closed: a slow server is asked less.
//
//   load PORT [--connections N] [--messages M] [--window W] [--mix reports|day] [--cross] [--firms E1,E2|K] [--carriers K] [--carrier C1]
//             [--accounts A1,..] [--symbol XF6] [--day yyyymmdd] [--ids TEXT] [--threads T] [--timeout S] [--quiet-ms MS] [--poke-ms MS]
//   load --print ..     writes the stream of the first connection to standard output, with its Logon and Logout, and connects to nothing
//
// Executing firm E<k> has the account H<k>. README.md of bench says what it is for. Status 0: all answered; 1: a fault or the timeout; 2: wrong words.
#include "connection.h"

#include <cmath>
#include <cstdlib>
#include <memory>
#include <sys/epoll.h>
#include <sys/resource.h>
#include <thread>
#include <unistd.h>

// One thread: some connections, until each is done.
static void drive(const std::vector<Connection *> &mine) {
  const int poller = epoll_create1(0);
  std::vector<bool> writes(mine.size(), false), gone(mine.size(), false);
  for (size_t i = 0; i < mine.size(); i++) {
    epoll_event event{EPOLLIN, {.u64 = i}};
    epoll_ctl(poller, EPOLL_CTL_ADD, mine[i]->fd, &event);
  }
  size_t left = mine.size();
  const auto step = [&](size_t i) {
    Connection &c = *mine[i];
    if (gone[i])
      return;
    if (!c.done())
      c.step(now_ns());
    if (c.done()) {
      close(c.fd);
      gone[i] = true;
      left--;
    } else if (c.wants_to_write() != writes[i]) {
      writes[i] = !writes[i];
      epoll_event event{writes[i] ? uint32_t(EPOLLIN) | EPOLLOUT : uint32_t(EPOLLIN), {.u64 = i}};
      epoll_ctl(poller, EPOLL_CTL_MOD, c.fd, &event);
    }
  };
  int64_t swept = 0;
  while (left > 0) {
    epoll_event events[64];
    const int n = swept ? epoll_wait(poller, events, 64, 5) : 0;
    for (int k = 0; k < n; k++) {
      const size_t i = events[k].data.u64;
      if (!gone[i] && events[k].events & ~uint32_t(EPOLLOUT))
        mine[i]->read_some();
      step(i);
    }
    if (const int64_t at = now_ns(); at - swept > 5'000'000) {
      swept = at;
      for (size_t i = 0; i < mine.size(); i++)
        step(i);
    }
  }
  close(poller);
}

static std::string quoted(const std::string &text) {
  std::string q = "\"";
  for (char c : text)
    q += c == '"' || c == '\\' || c < ' ' ? '.' : c;
  return q + '"';
}

static std::string percentiles(std::vector<int64_t> all) {
  std::sort(all.begin(), all.end());
  std::string text;
  for (auto [name, part] : {std::pair<const char *, double>{"p50", .5}, {"p90", .9}, {"p99", .99}, {"p99.9", .999}, {"max", 1}}) {
    char b[64];
    const double rank = std::ceil(part * double(all.size()));
    snprintf(b, sizeof b, "%s\"%s\":%.1f", text.empty() ? "" : ",", name, all.empty() ? 0. : double(all[size_t(rank) - 1]) / 1000);
    text += b;
  }
  return '{' + text + '}';
}

static double processor_seconds() {
  rusage u;
  getrusage(RUSAGE_SELF, &u);
  return double(u.ru_utime.tv_sec + u.ru_stime.tv_sec) + double(u.ru_utime.tv_usec + u.ru_stime.tv_usec) / 1e6;
}

// Returns a JSON object of the pairs whose number isn't 0.
static std::string object(const std::vector<std::pair<std::string, uint64_t>> &pairs) {
  std::string text;
  for (auto &[name, n] : pairs)
    if (n)
      text += (text.empty() ? "" : ",") + quoted(name) + ':' + std::to_string(n);
  return '{' + text + '}';
}

// Prints the line of JSON, and returns the status.
static int print_result(const std::vector<std::unique_ptr<Connection>> &connections, int64_t start, double processor) {
  const bool floods = options.window == 0;
  Tally all;
  for (auto &c : connections) {
    if (!floods)
      c->conclude();
    all.add(*c);
  }
  std::vector<std::pair<std::string, uint64_t>> sent, answers;
  std::vector<int64_t> latencies;
  std::string by_type, faults;
  uint64_t messages = 0;
  for (int k = 0; k < KINDS; k++) {
    sent.emplace_back(TYPE[k], all.sent_of[k]);
    messages += all.sent_of[k];
    latencies.insert(latencies.end(), all.latencies[k].begin(), all.latencies[k].end());
    if (all.sent_of[k])
      by_type += (by_type.empty() ? "" : ",") + quoted(std::string(TYPE[k])) + ':' + percentiles(all.latencies[k]);
  }
  for (int i = 0; i < COUNTS; i++)
    answers.emplace_back(COUNT_NAME[i], all.counts[i]);
  for (auto &f : all.faults)
    faults += (faults.empty() ? "" : ",") + quoted(f);
  const double seconds = double(std::max(start, floods ? now_ns() : all.last_work) - start) / 1e9;
  printf("{\"connections\":%zu,\"window\":%zu,\"mix\":\"%s\",\"messages\":%lu,\"sent\":%s,\"answers\":%s,", connections.size(), options.window,
         options.day_mix ? "day" : "reports", messages, object(sent).c_str(), object(answers).c_str());
  printf("\"seconds\":%.4f,\"per_second\":%.0f,\"latency_us\":%s,\"latency_us_by_type\":{%s},", seconds, seconds > 0 ? double(messages) / seconds : 0,
         percentiles(latencies).c_str(), by_type.c_str());
  printf("\"bytes_in\":%lu,\"bytes_out\":%lu,\"refused\":%s,\"gaps\":%lu,\"lows\":%lu,\"unasked\":%lu,\"unanswered\":%lu,", all.bytes_in, all.bytes_out,
         object({all.refused.begin(), all.refused.end()}).c_str(), all.gaps, all.lows, all.unasked, all.unanswered_at_end);
  printf("\"notices_missing\":%lu,\"positions_missing\":%lu,\"pokes\":%lu,\"load_processor_seconds\":%.4f,\"faults\":[%s]}\n", all.notices_missing,
         all.positions_due - std::min(all.positions_due, all.counts[AP]), all.pokes, processor, faults.c_str());
  return all.faults.empty() && all.unanswered_at_end == 0 ? 0 : 1;
}

static std::vector<std::string> list(const std::string &text) {
  std::vector<std::string> words{""};
  for (char c : text)
    if (c == ',')
      words.emplace_back();
    else
      words.back() += c;
  return words;
}

[[noreturn]] static void usage() {
  fprintf(stderr, "load PORT|--print [--connections 1..32] [--messages M] [--window W, 0 floods] [--mix reports|day] [--cross] [--firms E1,E2|K] [--carriers K] "
                  "[--carrier C1] [--accounts A1,..] [--symbol XF6] [--day yyyymmdd] [--ids TEXT] [--threads T] [--timeout S] [--quiet-ms MS] [--poke-ms MS]\n");
  exit(2);
}

static void read_words(int n, char **words) {
  bool carriers_named = false;
  for (int i = 1; i < n; i++) {
    const std::string word = words[i];
    const auto value = [&]() -> std::string { return i + 1 < n ? words[++i] : (usage(), ""); };
    const auto whole = [&](uint64_t least, uint64_t most) {
      const uint64_t v = fix::number(value(), most);
      return v >= least && v <= most ? v : (usage(), 0);
    };
    if (word == "--print") options.print = true;
    else if (word == "--cross") options.cross = true;
    else if (word == "--connections") options.connections = whole(1, 32);
    else if (word == "--messages") options.messages = whole(0, 1'000'000);
    else if (word == "--window") options.window = whole(0, 65'536);
    else if (word == "--threads") options.threads = whole(1, 32);
    else if (word == "--carriers") options.carriers = whole(0, 32), carriers_named = true;
    else if (word == "--timeout") options.timeout_ms = int64_t(whole(1, 3'600)) * 1000;
    else if (word == "--quiet-ms") options.quiet_ms = int64_t(whole(1, 60'000));
    else if (word == "--poke-ms") options.poke_ms = int64_t(whole(0, 60'000));
    else if (word == "--carrier") options.carrier = value();
    else if (word == "--accounts") options.accounts = list(value());
    else if (word == "--symbol") options.symbol = value();
    else if (word == "--day") options.day = value();
    else if (word == "--ids") options.ids = value();
    else if (word == "--mix") {
      const std::string mix = value();
      if (mix != "reports" && mix != "day") usage();
      options.day_mix = mix == "day";
    } else if (word == "--firms") {
      options.firms = list(value());
      if (const uint64_t k = fix::number(options.firms[0], 1000); options.firms.size() == 1 && k >= 1 && k <= 1000) {
        options.firms.clear();
        for (uint64_t f = 1; f <= k; f++)
          options.firms.push_back("E" + std::to_string(f));
      }
    } else if (!options.port && word[0] != '-') options.port = int(fix::number(word, 65'535));
    else usage();
  }
  if (options.day_mix && !carriers_named && options.connections > 1)
    options.carriers = 1;
  if ((!options.print && (options.port < 1 || options.port > 65'535)) || options.carriers > options.connections || (options.day_mix && options.cross) || options.ids.size() > 32)
    usage();
}

int main(int n, char **words) {
  read_words(n, words);
  const size_t executing = options.connections - options.carriers;
  shared.reports = std::vector<std::atomic<uint64_t>>(options.firms.size());
  shared.offers = std::vector<std::atomic<uint64_t>>(options.firms.size());
  shared.to_drain = executing;
  fix::Stamp stamp;
  std::vector<std::unique_ptr<Connection>> all;
  for (size_t i = 0; i < options.connections; i++) {
    const size_t f = i % options.firms.size();
    const bool carries = i >= executing;
    Planner planner(i, options.firms[f], stamp.now());
    const bool has_partner = options.cross && (i ^ 1) < executing;
    Plan plan = carries ? Plan() : options.day_mix ? planner.day(options.messages) : planner.reports(options.messages, has_partner);
    all.push_back(std::make_unique<Connection>(i, f, carries ? options.carrier : options.firms[f], carries, std::move(plan)));
  }
  if (options.print) {
    const std::string bytes = all[0]->stream();
    return fwrite(bytes.data(), 1, bytes.size(), stdout) == bytes.size() ? 0 : 1;
  }

  // All connect before one is waited for: a server may begin when its last connection is there.
  for (auto &c : all)
    c->begin();
  for (auto &c : all)
    c->wait_for_logon();
  if (std::any_of(all.begin(), all.end(), [](auto &c) { return c->done(); }))
    return print_result(all, now_ns(), 0);
  const double processor = processor_seconds();
  const int64_t start = now_ns();
  const size_t threads = std::min(options.connections, options.threads ? options.threads : 2);
  std::atomic<size_t> running{threads};
  std::vector<std::thread> running_threads;
  for (size_t t = 0; t < threads; t++) {
    std::vector<Connection *> mine;
    for (size_t i = t; i < all.size(); i += threads) {
      all[i]->last_work = start;
      mine.push_back(all[i].get());
    }
    running_threads.emplace_back([mine, &running] {
      drive(mine);
      running--;
    });
  }
  while (running > 0 && now_ns() - start < options.timeout_ms * 1'000'000)
    usleep(2'000);
  shared.stop = running > 0;
  for (auto &t : running_threads)
    t.join();
  return print_result(all, start, processor_seconds() - processor);
}
