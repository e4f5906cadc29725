// One connection of load.cpp: its session, its window of requests, and what it counts. Included, not built.
#pragma once
#include "plan.h"

#include <algorithm>
#include <arpa/inet.h>
#include <atomic>
#include <cerrno>
#include <map>
#include <netinet/in.h>
#include <netinet/tcp.h>
#include <poll.h>
#include <sys/socket.h>
#include <unordered_map>

inline int64_t now_ns() {
  timespec t;
  clock_gettime(CLOCK_MONOTONIC, &t);
  return int64_t(t.tv_sec) * 1'000'000'000 + t.tv_nsec;
}

// What the connections share. The tables are per firm, by its place in `firms`.
struct Shared {
  std::atomic<bool> stop{false};
  std::atomic<size_t> to_drain{0};            // executing connections with requests that aren't answered
  std::atomic<uint64_t> lines{0};             // lines of accepted give-ups
  std::atomic<uint64_t> to_close{0};          // lines that are asked for, and neither refused nor claimed yet
  std::vector<std::atomic<uint64_t>> reports; // accepted reports
  std::vector<std::atomic<uint64_t>> offers;  // lines of accepted give-ups
};
inline Shared shared;

enum Count { AR0, AR1, P0, P1, AE, AS8, AS9, AS10, AO, AP, J, REJECT, RESEND, LOGOUT, HEARTBEAT, TEST, LOGON, OTHER, COUNTS };
inline const char *const COUNT_NAME[COUNTS] = {"AR 939=0", "AR 939=1", "P 87=0", "P 87=1", "AE", "AS 794=8", "AS 794=9", "AS 794=10", "AO", "AP",
                                               "j", "3", "2", "5", "0", "1", "A", "other"};

// The counts of one connection, or of all.
struct Tally {
  uint64_t counts[COUNTS] = {}, sent_of[KINDS] = {}, bytes_in = 0, bytes_out = 0, gaps = 0, lows = 0, unasked = 0, positions_due = 0, pokes = 0;
  uint64_t unanswered_at_end = 0, notices_missing = 0;
  int64_t last_work = 0; // when the last answer or notice came
  std::vector<int64_t> latencies[KINDS];
  std::map<std::string, uint64_t> refused; // by 58
  std::vector<std::string> faults;

  void add(const Tally &t) {
    for (int i = 0; i < COUNTS; i++)
      counts[i] += t.counts[i];
    for (int k = 0; k < KINDS; k++) {
      sent_of[k] += t.sent_of[k];
      latencies[k].insert(latencies[k].end(), t.latencies[k].begin(), t.latencies[k].end());
    }
    bytes_in += t.bytes_in;
    bytes_out += t.bytes_out;
    gaps += t.gaps;
    lows += t.lows;
    unasked += t.unasked;
    positions_due += t.positions_due;
    pokes += t.pokes;
    unanswered_at_end += t.unanswered_at_end;
    notices_missing += t.notices_missing;
    last_work = std::max(last_work, t.last_work);
    for (auto &[text, n] : t.refused)
      refused[text] += n;
    faults.insert(faults.end(), t.faults.begin(), t.faults.end());
  }
};

// The fields of a received message that are looked at.
struct Seen {
  Text type, text, id, ref, status, offer, kind, test, due;
  uint64_t number = 0;
  bool again = false;

  explicit Seen(Text whole) {
    fix::fields(whole, [this](unsigned tag, Text value) {
      switch (tag) {
      case 35: type = value; break;
      case 34: number = fix::number(value); break;
      case 43: again = value == "Y"; break;
      case 45: ref = value; break;
      case 58: text = value; break;
      case 87: case 939: status = value; break;
      case 112: test = value; break;
      case 727: due = value; break;
      case 755: offer = value; break;
      case 794: kind = value; break;
      case 571: case 70: case 710: id = value; break;
      }
    });
  }
  // Our ids end in the request's index.
  uint64_t request() const { return fix::number(id.substr(id.rfind('-') + 1), UINT32_MAX - 1); }
};

class Connection : public Tally {
  enum class Phase { Run, Settle, Leaving, Done };
  struct Request {
    int64_t sent = 0;
    Kind kind = REPORT;
    bool open = false;
  };
  static constexpr uint32_t NONE = UINT32_MAX;
  static constexpr uint64_t OFFERS_OPEN = 3'900;

  Phase phase = Phase::Run;
  const size_t self, firm_index;
  const std::string firm;
  const bool carries, floods = options.window == 0; // a flood waits for no answer
  Plan plan;
  size_t planned = 0; // how much of the plan is sent
  std::vector<Request> requests;
  std::vector<uint32_t> request_of; // by our 34
  std::vector<uint32_t> unstamped;  // composed and not yet given to the socket
  std::unordered_map<uint64_t, uint32_t> claim_of;
  std::vector<uint64_t> to_claim;
  size_t unanswered = 0;
  uint64_t expected = 1, reports_accepted = 0;
  std::string out;
  size_t out_begin = 0;
  std::vector<char> in = std::vector<char>(1 << 18);
  size_t in_size = 0;
  fix::Draft draft;
  fix::Stamp stamp;
  int64_t last_poke = 0;

  void fault(const std::string &what) {
    if (faults.size() < 5)
      faults.push_back(firm + ": " + what);
    if (phase == Phase::Run && !carries)
      shared.to_drain--; // the others don't wait for it
    phase = Phase::Done;
  }

  // `tail` is the part of the message after 34.
  void compose(Text type, Text tail, uint32_t request = NONE) {
    draft.field("35=", type).field("49=", firm).text("56=GIVEUP\x01").field("34=", uint64_t(request_of.size())).text(tail);
    out.append(draft.done());
    request_of.push_back(request);
  }
  void compose_session(Text type, Text tag = {}, Text value = {}) {
    std::string tail = "52=" + std::string(stamp.now()) + fix::SOH;
    if (!tag.empty())
      tail.append(tag).append(value).push_back(fix::SOH);
    compose(type, tail);
  }
  void ask(Kind kind, Text tail, uint32_t request) {
    requests[request].kind = kind;
    requests[request].open = true;
    if (kind == GIVE_UP)
      shared.to_close += plan.requests[request].lines;
    unanswered++;
    sent_of[kind]++;
    unstamped.push_back(request);
    compose(TYPE[kind], tail, request);
  }
  void claim(uint64_t offer) {
    const uint32_t request = uint32_t(requests.size());
    requests.emplace_back();
    claim_of[offer] = request;
    ask(CLAIM, "52=" + std::string(stamp.now()) + "\x01" "755=" + std::to_string(offer) + "\x01" "87=0\x01", request);
  }

  void answered(uint64_t request, int64_t at) {
    if (request >= requests.size() || !requests[request].open) {
      unasked++;
      return;
    }
    Request &r = requests[request];
    r.open = false;
    unanswered--;
    shared.to_close -= r.kind == CLAIM;
    latencies[r.kind].push_back(at - r.sent);
    last_work = at;
  }

  void message(Text whole, int64_t at) {
    const Seen m(whole);
    if (m.again)
      return;
    gaps += m.number > expected;
    lows += m.number < expected;
    expected = m.number + 1;
    const Count count = take(m, at);
    counts[count]++;
    if (count == AR1 || count == P1 || count == J || count == REJECT)
      refused[!m.text.empty() ? std::string(m.text) : count == REJECT ? "(Reject)" : "(no 58)"]++;
  }

  Count take(const Seen &m, int64_t at) {
    if (m.type == "AR") {
      reports_accepted += m.status == "0";
      answered(m.request(), at);
      return m.status == "0" ? AR0 : AR1;
    }
    if (m.type == "P") {
      const uint64_t lines = m.request() < plan.requests.size() ? plan.requests[m.request()].lines : 0;
      shared.lines += m.status == "0" ? lines : 0;
      shared.offers[firm_index] += m.status == "0" ? lines : 0;
      shared.to_close -= m.status == "0" ? 0 : lines;
      answered(m.request(), at);
      return m.status == "0" ? P0 : P1;
    }
    if (m.type == "AO") {
      positions_due += fix::number(m.due);
      answered(m.request(), at);
      return AO;
    }
    if (m.type == "AE" || m.type == "AP") {
      last_work = at;
      return m.type == "AE" ? AE : AP;
    }
    if (m.type == "AS") {
      last_work = at;
      offer_told(fix::number(m.offer), m.kind == "8", at);
      return m.kind == "8" ? AS8 : m.kind == "9" ? AS9 : AS10;
    }
    if (m.type == "j" || m.type == "3") {
      // A claim whose offer a sweep took has had its AS and is closed.
      const uint64_t seq = fix::number(m.ref);
      if (seq < request_of.size() && request_of[seq] != NONE && requests[request_of[seq]].open)
        answered(request_of[seq], at);
      return m.type == "j" ? J : REJECT;
    }
    if (m.type == "1") {
      compose_session("0", "112=", m.test);
      return TEST;
    }
    if (m.type == "2") {
      fault("ResendRequest: a message of ours is missing");
      return RESEND;
    }
    if (m.type == "5") {
      if (phase != Phase::Leaving)
        fault("Logout " + std::string(m.text));
      phase = Phase::Done;
      return LOGOUT;
    }
    return m.type == "0" ? HEARTBEAT : m.type == "A" ? LOGON : OTHER;
  }

  // AS: an offer to claim, if it is in this connection's share; or the answer to a claim.
  void offer_told(uint64_t offer, bool is_new, int64_t at) {
    if (!carries)
      return;
    if (is_new && offer % options.carriers == self % options.carriers)
      to_claim.push_back(offer);
    if (auto claimed = claim_of.find(offer); !is_new && claimed != claim_of.end()) {
      if (requests[claimed->second].open)
        answered(claimed->second, at);
      claim_of.erase(claimed);
    }
  }

  // A product group has at most 4,096 open offers: the claims must keep up.
  bool may_ask() const {
    return planned < plan.requests.size() && (floods || unanswered < options.window) &&
           !(plan.requests[planned].kind == GIVE_UP && options.carriers > 0 && shared.to_close > OFFERS_OPEN);
  }
  void ask_more() {
    while (may_ask() && out.size() < (1 << 16)) {
      ask(plan.requests[planned].kind, plan.tail(planned), uint32_t(planned));
      planned++;
    }
    size_t claimed = 0;
    while (unanswered < options.window && claimed < to_claim.size())
      claim(to_claim[claimed++]);
    to_claim.erase(to_claim.begin(), to_claim.begin() + ptrdiff_t(claimed));
  }

  // Run until all is sent and answered; Settle until the notices are here, or nothing has come for a while; then the Logout.
  void go_on(int64_t at) {
    const bool is_quiet = at - last_work > options.quiet_ms * 1'000'000;
    if (phase == Phase::Run && planned == plan.requests.size() && to_claim.empty() && (floods ? out.empty() : unanswered == 0)) {
      if (!carries) {
        shared.reports[firm_index] += reports_accepted;
        shared.to_drain--;
        phase = Phase::Settle;
      } else if (shared.to_drain == 0 && ((shared.lines > 0 && counts[AS8] >= shared.lines) || is_quiet)) {
        phase = Phase::Settle;
      }
    }
    if (phase == Phase::Settle && (floods || carries || (shared.to_drain == 0 && (notices() >= notices_due() || is_quiet)))) {
      compose_session("5");
      phase = Phase::Leaving;
    }
    // A server may give notices only after a frame: a Heartbeat now and then lets them come.
    if ((phase == Phase::Run || phase == Phase::Settle) && !floods && options.poke_ms > 0 && at - std::max(last_work, last_poke) > options.poke_ms * 1'000'000) {
      last_poke = at;
      pokes++;
      compose_session("0");
    }
  }

  size_t open_requests() const { return unanswered + (plan.requests.size() - planned); }

  // Checks that the firm has the notices of its trades and, if somebody claims, of its offers.
  uint64_t notices_due() const { return shared.reports[firm_index] + (options.carriers > 0 ? shared.offers[firm_index].load() : 0); }
  uint64_t notices() const { return counts[AE] + counts[AS9] + counts[AS10]; }

public:
  int fd = -1;

  Connection(size_t self, size_t firm_index, std::string name, bool carries, Plan p)
      : self(self), firm_index(firm_index), firm(std::move(name)), carries(carries), plan(std::move(p)), requests(plan.requests.size()), request_of{NONE} {
    request_of.reserve(plan.requests.size() + 64);
    for (auto &l : latencies)
      l.reserve(plan.requests.size());
  }

  bool done() const { return phase == Phase::Done; }
  bool wants_to_write() const { return out_begin < out.size(); }
  void conclude() {
    const uint64_t due = carries ? shared.lines.load() : notices_due(), came = carries ? counts[AS8] : notices();
    notices_missing = came < due ? due - came : 0;
    unanswered_at_end = open_requests();
  }

  void compose_logon() { compose("A", "52=" + std::string(stamp.now()) + "\x01" "98=0\x01" "108=30\x01" "1137=9\x01"); }

  // The whole stream of requests, with the Logon and the Logout.
  std::string stream() {
    compose_logon();
    for (; planned < plan.requests.size(); planned++)
      ask(plan.requests[planned].kind, plan.tail(planned), uint32_t(planned));
    compose_session("5");
    return out;
  }

  // Connects and sends the Logon.
  void begin() {
    fd = socket(AF_INET, SOCK_STREAM, 0);
    const int one = 1;
    setsockopt(fd, IPPROTO_TCP, TCP_NODELAY, &one, sizeof one);
    sockaddr_in to{};
    to.sin_family = AF_INET;
    to.sin_port = htons(uint16_t(options.port));
    to.sin_addr.s_addr = htonl(INADDR_LOOPBACK);
    if (connect(fd, reinterpret_cast<sockaddr *>(&to), sizeof to) != 0)
      return fault("connect: " + std::string(strerror(errno)));
    compose_logon();
    write_some();
  }
  void wait_for_logon() {
    pollfd waited{fd, POLLIN, 0};
    while (!done() && counts[LOGON] == 0)
      if (poll(&waited, 1, 10'000) > 0)
        read_some();
      else
        fault("no Logon came");
  }

  void write_some() {
    if (!unstamped.empty()) {
      const int64_t at = now_ns();
      for (uint32_t r : unstamped)
        requests[r].sent = at;
      unstamped.clear();
    }
    while (wants_to_write()) {
      const ssize_t n = send(fd, out.data() + out_begin, out.size() - out_begin, MSG_DONTWAIT | MSG_NOSIGNAL);
      if (n < 0) {
        if (errno != EAGAIN && errno != EINTR)
          fault("send: " + std::string(strerror(errno)));
        return;
      }
      out_begin += size_t(n);
      bytes_out += uint64_t(n);
    }
    out.clear();
    out_begin = 0;
  }

  void read_some() {
    const ssize_t n = recv(fd, in.data() + in_size, in.size() - in_size, MSG_DONTWAIT);
    if (n < 0 && (errno == EAGAIN || errno == EINTR))
      return;
    if (n <= 0)
      return fault(n == 0 ? "the server closed the connection" : "recv: " + std::string(strerror(errno)));
    const int64_t at = now_ns();
    bytes_in += uint64_t(n);
    in_size += size_t(n);
    size_t begin = 0, size = 0;
    while (begin < in_size && !done()) {
      const fix::Found found = fix::message_at(in.data() + begin, in_size - begin, size);
      if (found == fix::Found::Broken)
        return fault("a broken frame came");
      if (found == fix::Found::Open)
        break;
      message(Text(in.data() + begin, size), at);
      begin += size;
    }
    memmove(in.data(), in.data() + begin, in_size - begin);
    in_size -= begin;
  }

  // Sends what may be sent, and goes on to the next phase when it is time.
  void step(int64_t at) {
    do {
      if (phase == Phase::Run)
        ask_more();
      go_on(at);
      if (shared.stop && !done())
        fault("timeout, " + std::to_string(open_requests()) + " requests open");
      else if (!done())
        write_some();
    } while (phase == Phase::Run && !wants_to_write() && may_ask());
  }
};
