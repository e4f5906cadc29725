// The limit of the machine: an acceptor by hand that answers reports (AE) with AR, notifies both sides of a match, and does no more than that needs.
// One thread a connection, one mutex around the book. No reference data, no positions, no validation; 571 unique per firm, 880 with two fitting sides.
//
//   acceptor_tight PORT [--sink]     listens on 127.0.0.1 until SIGTERM; --sink answers only Logon and Logout, and drops all else
#include "fix.h"

#include <algorithm>
#include <arpa/inet.h>
#include <csignal>
#include <cstdio>
#include <cstdlib>
#include <deque>
#include <memory>
#include <mutex>
#include <netinet/in.h>
#include <netinet/tcp.h>
#include <sys/socket.h>
#include <thread>
#include <unistd.h>
#include <unordered_map>
#include <vector>

using fix::Text;

static bool is_sink = false;
static constexpr Text DAY = "20260105";

// An arena: bytes that keep their address.
class Arena {
  std::deque<std::unique_ptr<char[]>> blocks;
  size_t used = SIZE;
  static constexpr size_t SIZE = 1 << 20;

public:
  Text keep(Text t) {
    if (used + t.size() > SIZE) {
      blocks.push_back(std::make_unique<char[]>(SIZE));
      used = 0;
    }
    char *to = blocks.back().get() + used;
    memcpy(to, t.data(), t.size());
    used += t.size();
    return Text(to, t.size());
  }
};

// A hash table with open addressing; the items have the keys' bytes.
template <class Item> class Table {
  struct Slot {
    uint64_t hash = 0;
    Item *item = nullptr;
  };
  std::vector<Slot> slots = std::vector<Slot>(1 << 12);
  size_t used = 0;

public:
  static uint64_t hash(Text t, uint64_t h) {
    for (size_t i = 0; i < t.size(); i += 8) {
      uint64_t word = 0;
      memcpy(&word, t.data() + i, std::min<size_t>(8, t.size() - i));
      const __uint128_t m = __uint128_t(h ^ word ^ t.size()) * 0x9E3779B97F4A7C15u;
      h = uint64_t(m) ^ uint64_t(m >> 64);
    }
    return h;
  }
  template <class Is> Item *find(uint64_t h, Is is) const {
    for (size_t i = h & (slots.size() - 1); slots[i].item; i = (i + 1) & (slots.size() - 1))
      if (slots[i].hash == h && is(*slots[i].item))
        return slots[i].item;
    return nullptr;
  }
  void add(uint64_t h, Item *item) {
    if (++used * 4 > slots.size() * 3) {
      std::vector<Slot> old(slots.size() * 2);
      old.swap(slots);
      for (const Slot &s : old)
        if (s.item)
          place(s);
    }
    place({h, item});
  }

private:
  void place(Slot s) {
    size_t i = s.hash & (slots.size() - 1);
    while (slots[i].item)
      i = (i + 1) & (slots.size() - 1);
    slots[i] = s;
  }
};

struct Connection;
struct Report;
struct Notice {
  const Report *report;
  const struct Trade *trade;
};
// The notices of a firm, and its connections. Guarded by the book's lock.
struct Firm {
  std::string name;
  std::vector<Notice> notices;
  std::vector<std::shared_ptr<Connection>> connections;
};
struct Trade {
  Text match, symbol;
  uint64_t lots;
  int64_t price;
  uint64_t entry = 0; // of the second report
  Report *first;
  bool matched = false;
};
struct Report {
  Text id, account;
  Firm *firm;
  Trade *trade;
  bool sell;
};

struct Book {
  std::mutex lock;
  std::unordered_map<std::string, std::unique_ptr<Firm>> firms;
  std::deque<Trade> trades;
  std::deque<Report> reports;
  Table<Report> by_id;
  Table<Trade> by_match;
  Arena arena;
  uint64_t entries = 0;

  // Returns the refusal's name, or none. If the report makes a trade, `other` is the firm of its first side.
  const char *report(Firm *firm, Text id, Text match, Text symbol, uint64_t lots, int64_t price, bool sell, Text account, Firm *&other) {
    entries++;
    const uint64_t id_hash = by_id.hash(id, uint64_t(uintptr_t(firm))), match_hash = by_match.hash(match, 1);
    if (by_id.find(id_hash, [&](const Report &r) { return r.firm == firm && r.id == id; }))
      return "DuplicateId";
    Trade *trade = by_match.find(match_hash, [&](const Trade &t) { return t.match == match; });
    if (trade && (trade->matched || trade->symbol != symbol || trade->lots != lots || trade->price != price || trade->first->sell == sell))
      return "MatchConflict";
    Report *made = &reports.emplace_back(Report{arena.keep(id), arena.keep(account), firm, trade, sell});
    by_id.add(id_hash, made);
    if (!trade) {
      made->trade = &trades.emplace_back(Trade{arena.keep(match), arena.keep(symbol), lots, price, 0, made});
      by_match.add(match_hash, made->trade);
      return nullptr;
    }
    trade->matched = true;
    trade->entry = entries;
    const Report *buy = sell ? trade->first : made, *sold = sell ? made : trade->first;
    buy->firm->notices.push_back({buy, trade});
    sold->firm->notices.push_back({sold, trade});
    other = trade->first->firm;
    return nullptr;
  }
};
static Book book;

// Returns a price in millionths; reads only digits and a point.
static int64_t price_of(Text t) {
  int64_t n = 0, sign = 1;
  int behind = -1;
  for (char c : t) {
    if (c == '-')
      sign = -1;
    else if (c == '.')
      behind = 0;
    else if (behind < 6)
      n = n * 10 + (c - '0'), behind += behind >= 0;
  }
  for (int i = behind < 0 ? 0 : behind; i < 6; i++)
    n *= 10;
  return sign * n;
}

static void put_price(fix::Draft &d, int64_t price) {
  d.text(price < 0 ? "31=-" : "31=");
  const uint64_t n = uint64_t(price < 0 ? -price : price);
  d.digits(n / 1'000'000);
  if (uint64_t part = n % 1'000'000) {
    char b[7] = {'.'};
    for (int i = 6; i > 0; i--, part /= 10)
      b[i] = char('0' + part % 10);
    size_t size = 7;
    while (b[size - 1] == '0')
      size--;
    d.text(Text(b, size));
  }
  d.text("\x01");
}

// Its lock is taken before the book's, never two connections' at once.
struct Connection : std::enable_shared_from_this<Connection> {
  const int fd;
  std::mutex lock;
  Firm *firm = nullptr;
  std::string out;
  uint64_t next = 1;
  size_t told = 0; // how many of the firm's notices were sent
  bool busy = true; // its own thread writes when the batch is done
  bool open = true;
  fix::Draft draft;
  fix::Stamp stamp;

  explicit Connection(int fd) : fd(fd) {}
  ~Connection() { close(fd); }

  fix::Draft &begin(Text type) {
    return draft.field("35=", type).text("49=GIVEUP\x01").field("56=", firm->name).field("34=", next++).field("52=", stamp.now());
  }
  void end() { out.append(draft.done()); }
  void flush() {
    size_t done = 0;
    while (open && done < out.size()) {
      const ssize_t n = send(fd, out.data() + done, out.size() - done, MSG_NOSIGNAL); // SO_SNDTIMEO bounds it
      if (n <= 0)
        open = false;
      else
        done += size_t(n);
    }
    out.clear();
  }
  // Appends the notices that this connection hasn't had. The caller holds the book's lock.
  void news(std::vector<Notice> &fresh) {
    fresh.assign(firm->notices.begin() + ptrdiff_t(told), firm->notices.end());
    told = firm->notices.size();
  }
  void tell(const std::vector<Notice> &fresh) {
    for (const Notice &n : fresh) {
      begin("AE").text("571=").digits(n.trade->entry).text(n.report->sell ? "-S\x01" : "-B\x01").field("572=", n.report->id).text("573=0\x01");
      draft.field("880=", n.trade->match).field("55=", n.trade->symbol).field("32=", n.trade->lots);
      put_price(draft, n.trade->price);
      draft.field("75=", DAY).text("552=1\x01").text(n.report->sell ? "54=2\x01" : "54=1\x01").field("1=", n.report->account);
      end();
    }
  }
  // Called by the thread of another connection.
  void tell_from_outside() {
    std::lock_guard<std::mutex> mine(lock);
    std::vector<Notice> fresh;
    {
      std::lock_guard<std::mutex> all(book.lock);
      news(fresh);
    }
    tell(fresh);
    if (!busy)
      flush();
  }
};

struct Fields {
  Text type, sender, id, match, symbol, lots, price, side, account, test, heartbeat;
  uint64_t number = 0;
};

static Fields read_fields(Text message) {
  Fields f;
  fix::fields(message, [&](unsigned tag, Text value) {
    switch (tag) {
    case 35: f.type = value; break;
    case 49: f.sender = value; break;
    case 34: f.number = fix::number(value); break;
    case 571: f.id = value; break;
    case 880: f.match = value; break;
    case 55: f.symbol = value; break;
    case 32: f.lots = value; break;
    case 31: f.price = value; break;
    case 54: f.side = value; break;
    case 1: f.account = value; break;
    case 108: f.heartbeat = value; break;
    case 112: f.test = value; break;
    }
  });
  return f;
}

static void report(Connection &c, const Fields &f, std::vector<Notice> &fresh, std::vector<std::shared_ptr<Connection>> &others) {
  others.clear();
  {
    std::lock_guard<std::mutex> mine(c.lock);
    const char *refusal;
    Firm *other = nullptr;
    {
      std::lock_guard<std::mutex> all(book.lock);
      refusal = book.report(c.firm, f.id, f.match, f.symbol, fix::number(f.lots), price_of(f.price), f.side == "2", f.account, other);
      c.news(fresh);
      if (other) {
        for (auto &o : c.firm->connections)
          if (o.get() != &c)
            others.push_back(o);
        if (other != c.firm)
          others.insert(others.end(), other->connections.begin(), other->connections.end());
      }
    }
    c.begin("AR").field("571=", f.id).field("880=", f.match);
    if (refusal)
      c.draft.text("939=1\x01" "751=99\x01").field("58=", Text(refusal));
    else
      c.draft.text("939=0\x01");
    c.end();
    c.tell(fresh);
  }
  for (auto &o : others)
    o->tell_from_outside();
}

// Returns false if the session ends.
static bool message(const std::shared_ptr<Connection> &self, Text whole, uint64_t &expected, std::vector<Notice> &fresh, std::vector<std::shared_ptr<Connection>> &others) {
  Connection &c = *self;
  const Fields f = read_fields(whole);
  if (f.number != expected++ || (c.firm == nullptr) != (f.type == "A"))
    return false;
  if (f.type == "AE" && !is_sink) {
    report(c, f, fresh, others);
    return true;
  }
  std::lock_guard<std::mutex> mine(c.lock);
  if (f.type == "A") {
    std::lock_guard<std::mutex> all(book.lock);
    auto &firm = book.firms[std::string(f.sender)];
    if (!firm)
      firm = std::make_unique<Firm>(Firm{std::string(f.sender), {}, {}});
    c.firm = firm.get();
    firm->connections.push_back(self);
    c.begin("A").text("98=0\x01").field("108=", f.heartbeat).text("1137=9\x01");
    c.end();
    c.news(fresh);
    c.tell(fresh);
  } else if (f.type == "1") {
    c.begin("0").field("112=", f.test);
    c.end();
  } else if (f.type == "5") {
    c.begin("5");
    c.end();
    return false;
  }
  return true;
}

static void serve(std::shared_ptr<Connection> self) {
  Connection &c = *self;
  std::vector<char> in(1 << 18);
  size_t size = 0;
  uint64_t expected = 1;
  std::vector<Notice> fresh;
  std::vector<std::shared_ptr<Connection>> others;
  for (bool going = true; going;) {
    const ssize_t n = recv(c.fd, in.data() + size, in.size() - size, 0);
    if (n <= 0)
      break;
    {
      std::lock_guard<std::mutex> mine(c.lock);
      c.busy = true;
    }
    size += size_t(n);
    size_t begin = 0, length = 0;
    while (going && begin < size) {
      const fix::Found found = fix::message_at(in.data() + begin, size - begin, length);
      if (found == fix::Found::Open)
        break;
      try {
        going = found == fix::Found::Whole && message(self, Text(in.data() + begin, length), expected, fresh, others);
      } catch (const std::length_error &) { // of an answer: the ids are longer than the profile's
        going = false;
      }
      begin += length;
    }
    memmove(in.data(), in.data() + begin, size - std::min(begin, size));
    size -= std::min(begin, size);
    std::lock_guard<std::mutex> mine(c.lock);
    c.flush();
    c.busy = false;
  }
  std::lock_guard<std::mutex> mine(c.lock);
  c.open = false;
  shutdown(c.fd, SHUT_RDWR);
  if (c.firm) {
    std::lock_guard<std::mutex> all(book.lock);
    auto &list = c.firm->connections;
    for (size_t i = 0; i < list.size(); i++)
      if (list[i] == self) {
        list.erase(list.begin() + ptrdiff_t(i));
        break;
      }
  }
}

int main(int n, char **words) {
  const uint64_t port = n > 1 ? fix::number(words[1], 65'535) : 0;
  is_sink = n > 2 && Text(words[2]) == "--sink";
  if (port < 1 || port > 65'535 || n > 2 + int(is_sink)) {
    fprintf(stderr, "acceptor_tight PORT [--sink]\n");
    return 2;
  }
  signal(SIGTERM, [](int) { _exit(0); });
  const int listening = socket(AF_INET, SOCK_STREAM, 0), one = 1;
  setsockopt(listening, SOL_SOCKET, SO_REUSEADDR, &one, sizeof one);
  sockaddr_in at{};
  at.sin_family = AF_INET;
  at.sin_port = htons(uint16_t(port));
  at.sin_addr.s_addr = htonl(INADDR_LOOPBACK);
  if (bind(listening, reinterpret_cast<sockaddr *>(&at), sizeof at) != 0 || listen(listening, 64) != 0) {
    perror("acceptor_tight");
    return 1;
  }
  for (;;) {
    const int fd = accept(listening, nullptr, nullptr);
    if (fd < 0)
      continue;
    const timeval most{10, 0};
    setsockopt(fd, IPPROTO_TCP, TCP_NODELAY, &one, sizeof one);
    setsockopt(fd, SOL_SOCKET, SO_SNDTIMEO, &most, sizeof most);
    std::thread(serve, std::make_shared<Connection>(fd)).detach();
  }
}
