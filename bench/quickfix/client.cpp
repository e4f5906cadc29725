// A firm's FIX engine (QuickFIX) that logs on to the desk, reports its side of a trade, loses what it was sent, asks for it again, and logs out.
// It prints each message that it sends and receives, `|` for SOH.
#include <quickfix/Application.h>
#include <quickfix/FileStore.h>
#include <quickfix/Log.h>
#include <quickfix/Session.h>
#include <quickfix/SessionSettings.h>
#include <quickfix/SocketInitiator.h>

#include <algorithm>
#include <chrono>
#include <condition_variable>
#include <functional>
#include <iostream>
#include <mutex>
#include <string>
#include <thread>

namespace {

// What has come so far, for the main thread to wait on.
class Firm : public FIX::Application {
public:
  bool wait(const std::function<bool(const Firm &)> &has_come) {
    std::unique_lock<std::mutex> lock(mutex);
    return changed.wait_for(lock, std::chrono::seconds(20), [&] { return has_come(*this); });
  }

  bool is_on = false;
  bool is_out = false;
  int acknowledgements = 0;
  int again = 0;
  FIX::SessionID session;

private:
  void note(const std::function<void()> &change) {
    std::lock_guard<std::mutex> lock(mutex);
    change();
    changed.notify_all();
  }

  static void print(const char *way, const FIX::Message &message) {
    std::string text = message.toString();
    std::replace(text.begin(), text.end(), '\001', '|');
    std::cout << way << ' ' << text << std::endl;
  }

  void onCreate(const FIX::SessionID &) override {}
  void onLogon(const FIX::SessionID &id) override {
    note([&] { session = id; is_on = true; });
  }
  void onLogout(const FIX::SessionID &) override {
    note([&] { is_out = true; });
  }
  void toAdmin(FIX::Message &message, const FIX::SessionID &) override { print("sent", message); }
  void toApp(FIX::Message &message, const FIX::SessionID &) throw(FIX::DoNotSend) override { print("sent", message); }
  void fromAdmin(const FIX::Message &message, const FIX::SessionID &) throw(FIX::FieldNotFound, FIX::IncorrectDataFormat, FIX::IncorrectTagValue, FIX::RejectLogon) override {
    print("came", message);
  }
  void fromApp(const FIX::Message &message, const FIX::SessionID &) throw(FIX::FieldNotFound, FIX::IncorrectDataFormat, FIX::IncorrectTagValue, FIX::UnsupportedMessageType) override {
    print("came", message);
    if (message.getHeader().getField(35) != "AR")
      return;
    const bool repeated = message.getHeader().isSetField(43);
    note([&] { ++(repeated ? again : acknowledgements); });
  }

  std::mutex mutex;
  std::condition_variable changed;
};

// One side of a trade (TradeCaptureReport).
FIX::Message report(const std::string &id, const std::string &match) {
  FIX::Message message;
  message.getHeader().setField(35, "AE");
  message.setField(571, id);
  message.setField(880, match);
  message.setField(55, "XF6");
  message.setField(32, "10");
  message.setField(31, "101.5");
  FIX::Group side(552, 54);
  side.setField(54, "1");
  side.setField(1, "H1");
  message.addGroup(side);
  return message;
}

int fail(const char *what) {
  std::cout << "no " << what << std::endl;
  return 1;
}

// The session expects this number next. QuickFIX counts a message only once fromApp has returned.
bool expects(FIX::Session &session, int number) {
  for (int turn = 0; turn < 20000; ++turn) {
    if (session.getExpectedTargetNum() == number)
      return true;
    std::this_thread::sleep_for(std::chrono::milliseconds(1));
  }
  return false;
}

int talk(Firm &firm) {
  if (!firm.wait([](const Firm &f) { return f.is_on; }))
    return fail("logon");
  FIX::Message first = report("R1", "M1");
  FIX::Session::sendToTarget(first, firm.session);
  if (!firm.wait([](const Firm &f) { return f.acknowledgements == 1; }))
    return fail("acknowledgement");

  // It forgets the acknowledgement, as if it had been lost on its way. The next message shows the gap.
  FIX::Session *session = FIX::Session::lookupSession(firm.session);
  if (!expects(*session, 3))
    return fail("count of the acknowledgement");
  session->setNextTargetMsgSeqNum(2);
  FIX::Message second = report("R2", "M2");
  FIX::Session::sendToTarget(second, firm.session);
  if (!firm.wait([](const Firm &f) { return f.again >= 1 && f.acknowledgements + f.again >= 3; }))
    return fail("message sent again");

  session->logout();
  if (!firm.wait([](const Firm &f) { return f.is_out; }))
    return fail("logout");
  std::cout << "logged on, acknowledged, sent again, logged out" << std::endl;
  return 0;
}

} // namespace

int main(int count, char **words) {
  if (count != 2) {
    std::cerr << "client SETTINGS" << std::endl;
    return 2;
  }
  Firm firm;
  FIX::SessionSettings settings{std::string(words[1])};
  FIX::FileStoreFactory store(settings);
  FIX::SocketInitiator initiator(firm, store, settings);
  initiator.start();
  const int status = talk(firm);
  initiator.stop(true);
  return status;
}
