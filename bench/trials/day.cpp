// Four firms' FIX engines (QuickFIX) at a desk, through the steps of a file. It prints each message that they send and receive, `|` for SOH, and sums at the end.
//
//   day STEPS TRANSPORT APPLICATION SETTINGS..     the steps, the two dictionaries, and the settings of each firm's engine
//
// Status 1: something that a step waits for hasn't come for 10 seconds, something has come that no step waits for, or a firm wasn't logged on or out.
#include <quickfix/Application.h>
#include <quickfix/DataDictionary.h>
#include <quickfix/FileStore.h>
#include <quickfix/Session.h>
#include <quickfix/SessionSettings.h>
#include <quickfix/SocketInitiator.h>

#include <algorithm>
#include <chrono>
#include <condition_variable>
#include <fstream>
#include <functional>
#include <iostream>
#include <map>
#include <memory>
#include <mutex>
#include <sstream>
#include <string>
#include <thread>
#include <vector>

namespace {

using Words = std::vector<std::string>;

std::mutex printing;

std::string text_of(const FIX::Message &message) {
  std::string text = message.toString();
  std::replace(text.begin(), text.end(), '\001', '|');
  return text;
}

// A message that has come, and whether a step has waited for it.
struct Came {
  std::string type, text;
  bool is_heard = false;

  bool fits(const std::string &wanted, const Words &fields) const {
    return !is_heard && type == wanted && std::all_of(fields.begin(), fields.end(), [&](const std::string &field) { return text.find('|' + field + '|') != std::string::npos; });
  }
};

// A firm's engine.
class Firm : public FIX::Application {
public:
  Firm(const std::string &file, const std::string &name) : name(name), settings(file), store(settings), initiator(*this, store, settings) { initiator.start(); }
  ~Firm() { initiator.stop(true); }

  bool logs_on() { return wait([&] { return is_logged_on; }); }
  bool hears(const std::string &type, const Words &fields) {
    return wait([&] {
      const auto found = std::find_if(came.begin(), came.end(), [&](const Came &c) { return c.fits(type, fields); });
      if (found == came.end())
        return false;
      found->is_heard = true;
      return true;
    });
  }
  // Sets the number that is expected next back, once QuickFIX has counted what came: it does so only after fromApp has returned.
  bool forgets(int count) {
    FIX::Session *session = FIX::Session::lookupSession(id);
    for (int turn = 0; turn < 10000; ++turn, std::this_thread::sleep_for(std::chrono::milliseconds(1)))
      if (session->getExpectedTargetNum() == numbers() + 1) {
        session->setNextTargetMsgSeqNum(numbers() + 1 - count);
        return true;
      }
    return false;
  }
  bool logs_out() {
    FIX::Session::lookupSession(id)->logout();
    return wait([&] { return is_logged_out; });
  }
  bool has_more() {
    std::lock_guard<std::mutex> lock(mutex);
    for (const Came &c : came)
      if (!c.is_heard)
        std::cout << name << " nothing waits for " << c.text << std::endl;
    return std::any_of(came.begin(), came.end(), [](const Came &c) { return !c.is_heard; });
  }
  std::string sums() {
    std::lock_guard<std::mutex> lock(mutex);
    return name + ": sent" + listed(sent) + "; came" + listed(counts) + "; sent again" + listed(again);
  }

  const std::string name;
  FIX::SessionID id;

private:
  static std::string listed(const std::map<std::string, int> &counts) {
    std::string text;
    for (const auto &counted : counts)
      text += (text.empty() ? " " : ", ") + counted.first + ' ' + std::to_string(counted.second);
    return text.empty() ? " nothing" : text;
  }

  bool wait(const std::function<bool()> &has_come) {
    std::unique_lock<std::mutex> lock(mutex);
    return changed.wait_for(lock, std::chrono::seconds(10), has_come);
  }
  int numbers() {
    std::lock_guard<std::mutex> lock(mutex);
    return last;
  }
  void note(const char *way, const FIX::Message &message, const std::function<void(const std::string &, const std::string &)> &change) {
    const std::string text = text_of(message), type = message.getHeader().getField(35);
    {
      std::lock_guard<std::mutex> lock(printing);
      std::cout << name << ' ' << way << ' ' << text << std::endl;
    }
    std::lock_guard<std::mutex> lock(mutex);
    change(type, text);
    changed.notify_all();
  }
  void note_sent(const FIX::Message &message) {
    note("sent", message, [&](const std::string &type, const std::string &) { ++sent[type]; });
  }
  void note_came(const FIX::Message &message, bool is_application) {
    note("came", message, [&](const std::string &type, const std::string &text) {
      ++(message.getHeader().isSetField(43) ? again : counts)[type];
      last = std::max(last, std::stoi(message.getHeader().getField(34)));
      if (is_application)
        came.push_back({type, text});
    });
  }

  void onCreate(const FIX::SessionID &) override {}
  void onLogon(const FIX::SessionID &session) override {
    std::lock_guard<std::mutex> lock(mutex);
    id = session;
    is_logged_on = true;
    changed.notify_all();
  }
  void onLogout(const FIX::SessionID &) override {
    std::lock_guard<std::mutex> lock(mutex);
    is_logged_out = true;
    changed.notify_all();
  }
  // A Logon has the firm's secret, if its settings have one.
  void toAdmin(FIX::Message &message, const FIX::SessionID &session) override {
    const FIX::Dictionary words = settings.get(session);
    if (message.getHeader().getField(35) == "A" && words.has("Password"))
      message.setField(554, words.getString("Password"));
    note_sent(message);
  }
  void toApp(FIX::Message &message, const FIX::SessionID &) throw(FIX::DoNotSend) override { note_sent(message); }
  void fromAdmin(const FIX::Message &message, const FIX::SessionID &) throw(FIX::FieldNotFound, FIX::IncorrectDataFormat, FIX::IncorrectTagValue, FIX::RejectLogon) override {
    note_came(message, false);
  }
  void fromApp(const FIX::Message &message, const FIX::SessionID &) throw(FIX::FieldNotFound, FIX::IncorrectDataFormat, FIX::IncorrectTagValue, FIX::UnsupportedMessageType) override {
    note_came(message, true);
  }

  std::mutex mutex;
  std::condition_variable changed;
  bool is_logged_on = false, is_logged_out = false;
  int last = 0;
  std::vector<Came> came;
  std::map<std::string, int> sent, counts, again;
  FIX::SessionSettings settings;
  FIX::FileStoreFactory store;
  FIX::SocketInitiator initiator;
};

// A message of these fields, read by the dictionaries, since some fields are of groups. QuickFIX fills in the rest.
FIX::Message message_of(const std::string &type, const Words &fields, const FIX::DataDictionary &transport, const FIX::DataDictionary &application) {
  std::string text = "8=FIXT.1.1\0019=0\00135=" + type + '\001';
  for (const std::string &field : fields)
    text += field + '\001';
  return FIX::Message(text + "10=000\001", transport, application, false);
}

class Day {
public:
  Day(char **words, int count) : transport(words[1]), application(words[2]) {
    for (int i = 3; i < count; ++i) {
      const std::string file = words[i], name = file.substr(file.rfind('/') + 1);
      firms[name] = std::make_unique<Firm>(file, name);
    }
  }

  bool goes_on(const std::string &line) {
    std::istringstream in(line);
    std::string name, does, what;
    in >> name >> does >> what;
    Words fields;
    for (std::string field; in >> field;)
      fields.push_back(field);
    Firm &firm = *firms.at(name);
    if (does == "sends") {
      FIX::Message message = message_of(what, fields, transport, application);
      return FIX::Session::sendToTarget(message, firm.id);
    }
    return does == "hears" ? firm.hears(what, fields) : does == "forgets" && firm.forgets(std::stoi(what));
  }
  bool all(const char *what, const std::function<bool(Firm &)> &does) {
    bool do_all = true;
    for (auto &named : firms)
      if (!does(*named.second)) {
        std::cout << "missing: " << named.first << ' ' << what << std::endl;
        do_all = false;
      }
    return do_all;
  }
  void print_sums() {
    for (auto &named : firms)
      std::cout << named.second->sums() << std::endl;
  }

private:
  FIX::DataDictionary transport, application;
  std::map<std::string, std::unique_ptr<Firm>> firms;
};

bool takes_steps(Day &day, const char *file) {
  std::ifstream in(file);
  for (std::string line; std::getline(in, line);)
    if (!line.empty() && line[0] != '#' && !day.goes_on(line)) {
      std::cout << "missing: " << line << std::endl;
      return false;
    }
  return true;
}

} // namespace

int main(int count, char **words) {
  if (count < 5) {
    std::cerr << "day STEPS TRANSPORT APPLICATION SETTINGS.." << std::endl;
    return 2;
  }
  Day day(words + 1, count - 1);
  const bool is_well = day.all("logs on", [](Firm &f) { return f.logs_on(); }) && takes_steps(day, words[1]);
  const bool are_out = day.all("logs out", [](Firm &f) { return f.logs_out(); });
  const bool have_all = day.all("has more than was waited for", [](Firm &f) { return !f.has_more(); });
  day.print_sums();
  return is_well && are_out && have_all ? 0 : 1;
}
