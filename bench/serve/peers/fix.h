// Frames and fields of FIX messages, as load.cpp and acceptor_tight.cpp read and write them. Included, not built.
#pragma once
#include <cstddef>
#include <cstdint>
#include <cstring>
#include <ctime>
#include <stdexcept>
#include <string>
#include <string_view>

namespace fix {

using Text = std::string_view;
constexpr char SOH = 1;
constexpr size_t MESSAGE_MAX = 65536;

inline uint8_t byte_sum(const char *p, size_t n) {
  uint8_t sum = 0; // the checksum is modulo 256, so lanes of a byte may wrap
  for (size_t i = 0; i < n; i++)
    sum = uint8_t(sum + uint8_t(p[i]));
  return sum;
}

// Returns the number that digits write; `most + 1` if the text is no number, or is above `most`.
inline uint64_t number(Text t, uint64_t most = 1'000'000'000) {
  uint64_t n = 0;
  if (t.empty() || t.size() > 18)
    return most + 1;
  for (char c : t) {
    if (c < '0' || c > '9')
      return most + 1;
    n = n * 10 + uint64_t(c - '0');
  }
  return n <= most ? n : most + 1;
}

enum class Found { Whole, Open, Broken };

// Returns what is at p: a whole message of `size` bytes, the beginning of one, or neither.
inline Found message_at(const char *p, size_t n, size_t &size) {
  static constexpr Text front = "8=FIXT.1.1\x01" "9=";
  if (memcmp(p, front.data(), n < front.size() ? n : front.size()) != 0)
    return Found::Broken;
  size_t i = front.size(), body = 0;
  while (i < n && p[i] >= '0' && p[i] <= '9' && i < front.size() + 7)
    body = body * 10 + size_t(p[i++] - '0');
  if (i >= n)
    return Found::Open;
  size = i + 1 + body + 7; // SOH, the body, 10=ddd and SOH
  if (p[i] != SOH || size > MESSAGE_MAX)
    return Found::Broken;
  if (n < size)
    return Found::Open;
  const char *end = p + size - 7;
  const unsigned sum = unsigned(end[3] - '0') * 100 + unsigned(end[4] - '0') * 10 + unsigned(end[5] - '0');
  return memcmp(end, "10=", 3) == 0 && sum == byte_sum(p, size - 7) ? Found::Whole : Found::Broken;
}

// Calls each(tag, value) for the fields of a whole message, in order.
template <class Each> inline void fields(Text message, Each each) {
  const char *p = message.data(), *end = p + message.size();
  while (p < end) {
    unsigned tag = 0;
    while (p < end && *p >= '0' && *p <= '9')
      tag = tag * 10 + unsigned(*p++ - '0');
    const char *value = ++p; // after the `=`
    while (p < end && *p != SOH)
      p++;
    if (p >= end)
      return;
    each(tag, Text(value, size_t(p - value)));
    p++;
  }
}

// A message that is being written. The body comes after room for the front, which is filled in once the body's length is known.
class Draft {
  static constexpr size_t ROOM = 32, MOST = 2048;
  char bytes[MOST];
  char *end = bytes + ROOM;

public:
  Draft &text(Text t) {
    if (t.size() > size_t(bytes + MOST - 32 - end))
      throw std::length_error("message too long");
    memcpy(end, t.data(), t.size());
    end += t.size();
    return *this;
  }
  Draft &digits(uint64_t n) {
    char d[20];
    size_t i = 20;
    do
      d[--i] = char('0' + n % 10);
    while (n /= 10);
    return text(Text(d + i, 20 - i));
  }
  // `tag` is written with its `=`, as in "34=".
  Draft &field(Text tag, Text value) { return text(tag).text(value).text("\x01"); }
  Draft &field(Text tag, uint64_t value) { return text(tag).digits(value).text("\x01"); }

  // The whole message. The draft is empty then, and its bytes stay until the next one is begun.
  Text done() {
    char front[ROOM];
    size_t n = 13;
    memcpy(front, "8=FIXT.1.1\x01" "9=", 13);
    const size_t body = size_t(end - bytes) - ROOM;
    for (size_t unit = body < 100 ? 10 : body < 1000 ? 100 : 1000; unit; unit /= 10)
      front[n++] = char('0' + body / unit % 10);
    front[n++] = SOH;
    char *begin = bytes + ROOM - n;
    memcpy(begin, front, n);
    const unsigned sum = byte_sum(begin, size_t(end - begin));
    const char tail[] = {'1', '0', '=', char('0' + sum / 100), char('0' + sum / 10 % 10), char('0' + sum % 10), SOH};
    memcpy(end, tail, 7);
    const Text whole(begin, size_t(end - begin) + 7);
    end = bytes + ROOM;
    return whole;
  }
};

// YYYYMMDD-HH:MM:SS.sss of now, in UTC; written anew when the millisecond changes.
class Stamp {
  int64_t last = -1;
  char bytes[32];

public:
  Text now() {
    timespec t;
    clock_gettime(CLOCK_REALTIME, &t);
    const int64_t ms = int64_t(t.tv_sec) * 1000 + t.tv_nsec / 1'000'000;
    if (ms / 1000 != last / 1000 || last < 0) {
      tm civil;
      gmtime_r(&t.tv_sec, &civil);
      strftime(bytes, sizeof bytes, "%Y%m%d-%H:%M:%S.000", &civil);
    }
    last = ms;
    for (size_t i = 0, rest = size_t(ms % 1000); i < 3; i++, rest /= 10)
      bytes[20 - i] = char('0' + rest % 10);
    return Text(bytes, 21);
  }
};

} // namespace fix
