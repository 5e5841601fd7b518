// gateway_stand_in WORD..: answers a gateway in the place of a tabletd, which is told more words. Raw reads find nothing, each
// session may commit one cell, and all else is refused. It takes about as long for a request as tabletd.
#include <string>
#include <unistd.h>
#include <unordered_map>

#include "driver.h"

namespace {

constexpr double kSecondsOfRequest = 0.5e-6;
constexpr size_t kLengthBytes = 4, kClientBytes = 4, kStampBytes = 8;

// The stamp that was drawn last, and how many steps were taken of each session, by its start.
struct Store {
  uint64_t stamp;
  std::unordered_map<std::string, int> steps;
};

std::string StampOf(uint64_t number) {
  std::string bytes;
  for (int shift = 56; shift >= 0; shift -= 8) bytes += static_cast<char>(number >> shift);
  return bytes;
}

// The reply to a Step: the cell is locked, the commit has its stamp, the cell is committed.
std::string Stepped(Store* store, const std::string& start) {
  switch (store->steps[start]++) {
    case 0: return std::string("\x84\x01\0\x01\0\x01", 6);
    case 1: return "\x84\x03" + StampOf(++store->stamp);
    default: store->steps.erase(start); return "\x84\x04" + StampOf(store->stamp);
  }
}

std::string Reply(Store* store, const std::string& body) {
  if (body.empty()) return "\x85";
  switch (body[0]) {
    case 0x01: return "\x81" + StampOf(++store->stamp);
    case 0x03: return "\x83";
    case 0x04: return Stepped(store, body.substr(1, kStampBytes));
    case 0x11: return std::string("\x91\0", 2);
    default: return "\xff\x16";
  }
}

void Wait() {
  for (const double end = Seconds() + kSecondsOfRequest; Seconds() < end;) {
  }
}

// Answers the whole frames of these bytes, and drops them.
std::string Answered(Store* store, std::string* bytes) {
  std::string replies;
  size_t at = 0;
  while (at + kLengthBytes <= bytes->size()) {
    const size_t length = NumberAt(*bytes, at), begin = at + kLengthBytes;
    if (begin + length > bytes->size()) break;
    const std::string client = bytes->substr(begin, kClientBytes);
    replies += Field(client + Reply(store, bytes->substr(begin + kClientBytes, length - kClientBytes)));
    Wait();
    at = begin + length;
  }
  bytes->erase(0, at);
  return replies;
}

}  // namespace

int main() {
  static char piece[1 << 16];
  Store store = {};
  std::string unread;
  for (ssize_t came; (came = read(0, piece, sizeof piece)) > 0;) {
    unread.append(piece, came);
    const std::string replies = Answered(&store, &unread);
    for (size_t sent = 0; sent < replies.size();) {
      const ssize_t count = write(1, replies.data() + sent, replies.size() - sent);
      Check(count > 0, "the gateway has ended");
      sent += count;
    }
  }
}
