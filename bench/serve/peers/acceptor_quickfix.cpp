// The server that one would take from the shelf: QuickFIX 1.15.1's threaded acceptor with stores in memory and no log. It answers reports (AE) with AR and
// notifies both sides of a match, by the profile's rules as far as the mix `reports` needs: ids, matching and notices; no reference data and no positions.
//
//   acceptor_quickfix PORT FIRM.. [--validate DIR]     listens on 127.0.0.1 until SIGTERM, one session a firm
//
// --validate DIR: messages are parsed and validated by DIR/FIXT11.xml and DIR/FIX50SP2.xml. Built as C++14: the headers have `throw(..)` lists.
#include <quickfix/Application.h>
#include <quickfix/MessageStore.h>
#include <quickfix/Session.h>
#include <quickfix/SessionSettings.h>
#include <quickfix/ThreadedSocketAcceptor.h>

#include <arpa/inet.h>
#include <csignal>
#include <cstring>
#include <iostream>
#include <mutex>
#include <netinet/in.h>
#include <sstream>
#include <string>
#include <sys/syscall.h>
#include <unistd.h>
#include <unordered_map>
#include <unordered_set>
#include <vector>

// QuickFIX listens on every address; the linker takes this in place of the library's, so that it is loopback alone.
extern "C" int bind(int fd, const sockaddr *address, socklen_t size) noexcept {
  sockaddr_in loopback;
  if (address->sa_family == AF_INET && size >= sizeof loopback) {
    std::memcpy(&loopback, address, sizeof loopback);
    loopback.sin_addr.s_addr = htonl(INADDR_LOOPBACK);
    address = reinterpret_cast<sockaddr *>(&loopback);
  }
  return int(syscall(SYS_bind, fd, address, size));
}

namespace {

struct Report {
  std::string firm, id, match, symbol, account;
  double lots, price;
  char side;
};

// The book: a report waits under its match id for the other side.
class Book {
  std::mutex lock;
  std::unordered_map<std::string, std::unordered_set<std::string>> ids; // of a firm
  struct Trade {
    Report first;
    bool matched;
  };
  std::unordered_map<std::string, Trade> trades;
  unsigned long entries = 0;

public:
  // Returns the refusal's name, or none. If the report makes a trade, `number` is its entry and `other` its first side.
  const char *enter(const Report &report, unsigned long &number, Report &other) {
    std::lock_guard<std::mutex> hold(lock);
    entries++;
    auto &own = ids[report.firm];
    if (own.count(report.id))
      return "DuplicateId";
    auto found = trades.find(report.match);
    if (found != trades.end()) {
      const Report &first = found->second.first;
      if (found->second.matched || first.symbol != report.symbol || first.lots != report.lots || first.price != report.price || first.side == report.side)
        return "MatchConflict";
      found->second.matched = true;
      other = first;
      number = entries;
    } else {
      trades.emplace(report.match, Trade{report, false});
    }
    own.insert(report.id);
    return nullptr;
  }
};

class House : public FIX::Application {
  Book book;
  const bool has_groups; // with a dictionary the side is a group, without one its fields are in the message itself

  void onCreate(const FIX::SessionID &) override {}
  void onLogon(const FIX::SessionID &) override {}
  void onLogout(const FIX::SessionID &) override {}
  void toAdmin(FIX::Message &message, const FIX::SessionID &) override {
    if (message.getHeader().getField(FIX::FIELD::MsgType) == "A")
      message.setField(FIX::DefaultApplVerID("9"));
  }
  void toApp(FIX::Message &, const FIX::SessionID &) throw(FIX::DoNotSend) override {}
  void fromAdmin(const FIX::Message &, const FIX::SessionID &) throw(FIX::FieldNotFound, FIX::IncorrectDataFormat, FIX::IncorrectTagValue, FIX::RejectLogon) override {}

  Report read(const FIX::Message &message) const {
    FIX::SenderCompID firm;
    FIX::TradeReportID id;
    FIX::TrdMatchID match;
    FIX::Symbol symbol;
    FIX::LastQty lots;
    FIX::LastPx price;
    FIX::Side side;
    FIX::Account account;
    message.getHeader().getField(firm);
    message.getField(id);
    message.getField(match);
    message.getField(symbol);
    message.getField(lots);
    message.getField(price);
    if (has_groups) {
      FIX::Group group(FIX::FIELD::NoSides, FIX::FIELD::Side);
      message.getGroup(1, group);
      group.getField(side);
      group.getField(account);
    } else {
      message.getField(side);
      message.getField(account);
    }
    return {firm, id, match, symbol, account, lots, price, side};
  }

  // Not FIX50SP2's classes: they add an ApplVerID (1128), which the profile doesn't have.
  static FIX::Message made(const char *type) {
    FIX::Message message;
    message.getHeader().setField(FIX::MsgType(type));
    return message;
  }
  static void send(FIX::Message &message, const std::string &firm) {
    FIX::Session::sendToTarget(message, FIX::SessionID("FIXT.1.1", "GIVEUP", firm));
  }

  static void tell(const Report &report, unsigned long number) {
    FIX::Message notice = made("AE");
    notice.setField(FIX::TradeReportID(std::to_string(number) + (report.side == FIX::Side_BUY ? "-B" : "-S")));
    notice.setField(FIX::TradeReportRefID(report.id));
    notice.setField(FIX::MatchStatus('0'));
    notice.setField(FIX::TrdMatchID(report.match));
    notice.setField(FIX::Symbol(report.symbol));
    notice.setField(FIX::LastQty(report.lots));
    notice.setField(FIX::LastPx(report.price));
    notice.setField(FIX::TradeDate("20260105"));
    FIX::Group side(FIX::FIELD::NoSides, FIX::FIELD::Side);
    side.setField(FIX::Side(report.side));
    side.setField(FIX::Account(report.account));
    notice.addGroup(side);
    send(notice, report.firm);
  }

  void fromApp(const FIX::Message &message, const FIX::SessionID &) throw(FIX::FieldNotFound, FIX::IncorrectDataFormat, FIX::IncorrectTagValue, FIX::UnsupportedMessageType) override {
    if (message.getHeader().getField(FIX::FIELD::MsgType) != "AE")
      throw FIX::UnsupportedMessageType();
    const Report report = read(message);
    unsigned long number = 0;
    Report other;
    const char *refusal = book.enter(report, number, other);
    FIX::Message ack = made("AR");
    ack.setField(FIX::TradeReportID(report.id));
    ack.setField(FIX::TrdMatchID(report.match));
    ack.setField(FIX::TrdRptStatus(refusal ? 1 : 0));
    if (refusal) {
      ack.setField(FIX::TradeReportRejectReason(99));
      ack.setField(FIX::Text(refusal));
    }
    send(ack, report.firm);
    if (number) {
      tell(report.side == FIX::Side_BUY ? report : other, number);
      tell(report.side == FIX::Side_BUY ? other : report, number);
    }
  }

public:
  explicit House(bool has_groups) : has_groups(has_groups) {}
};

} // namespace

int main(int count, char **words) {
  std::vector<std::string> firms;
  std::string port, dictionaries;
  for (int i = 1; i < count; i++) {
    const std::string word = words[i];
    if (word == "--validate" && i + 1 < count)
      dictionaries = words[++i];
    else if (port.empty())
      port = word;
    else
      firms.push_back(word);
  }
  if (firms.empty()) {
    std::cerr << "acceptor_quickfix PORT FIRM.. [--validate DIR]" << std::endl;
    return 2;
  }
  sigset_t end;
  sigemptyset(&end);
  sigaddset(&end, SIGTERM);
  sigaddset(&end, SIGINT);
  pthread_sigmask(SIG_BLOCK, &end, nullptr); // the threads inherit it, and the main thread waits for it

  std::ostringstream text;
  text << "[DEFAULT]\nConnectionType=acceptor\nBeginString=FIXT.1.1\nDefaultApplVerID=FIX.5.0SP2\nSenderCompID=GIVEUP\nSocketAcceptPort=" << port
       << "\nSocketReuseAddress=Y\nSocketNodelay=Y\nStartTime=00:00:00\nEndTime=00:00:00\nResetOnLogon=Y\nCheckLatency=N\n";
  if (dictionaries.empty())
    text << "UseDataDictionary=N\n";
  else
    text << "UseDataDictionary=Y\nTransportDataDictionary=" << dictionaries << "/FIXT11.xml\nAppDataDictionary=" << dictionaries << "/FIX50SP2.xml\n";
  for (const std::string &firm : firms)
    text << "[SESSION]\nTargetCompID=" << firm << "\n";
  try {
    std::istringstream stream(text.str());
    House house(!dictionaries.empty());
    FIX::SessionSettings settings(stream);
    FIX::MemoryStoreFactory store;
    FIX::ThreadedSocketAcceptor acceptor(house, store, settings);
    acceptor.start();
    int signal;
    sigwait(&end, &signal);
    acceptor.stop(true);
  } catch (const std::exception &fault) {
    std::cerr << "acceptor_quickfix: " << fault.what() << std::endl;
    return 1;
  }
  return 0;
}
