// duqishom-bridge: the other end of the pipes of servers (tabletd --rows FOLDER), over a RADOS cluster.
//
// A message in either direction is a u32 length and a body; numbers are big-endian, and a field is a u32 length and its
// bytes. Requests come through FOLDER/rows.to and FOLDER/stamps.to, replies go through rows.from and stamps.from:
//   01 Fetch: field row prefix                     81: u64 guard, u32 count, and of each key: field text, field value
//   02 Swap: field row prefix, u64 guard, u32 count, and of each edit: 01 field text field value, or 00 field text
//                                                  82: 00 done, or 01 raced
//   03 Page: field first text, u32 most            83: u8 is last, u32 count, and of each key: field text, field value
//   04 Draw                                        84: u64 stamp
//   05 Publish: u64 floor                          85: u64 least floor
//   06 a request of the server begins              nothing
// FF: the engine failed, and nothing was changed. Where that isn't known, the pipes are closed instead.
//
// A server may have a recording: a file to which frames are added, each before its reply is given:
//   01 field row prefix, u64 guard, place          02 field row prefix, u64 guard, u32 count, and of each edit: u8 puts,
//   03 field first text, u32 count, places            field text; and when that was done 82 00 place, or 82 01: raced
//   04 u64 stamp                                   05 u64 floor, u64 least, u64 version made or 0, u64 version seen
//   06 a request of the server begins              FF u8 message: it failed, and nothing was changed
//   08 u32 count, and of each tablet: field object, u64 epoch; before the first message of rows, and when they have changed
// where a place is: field object, u64 version.
#include <fcntl.h>
#include <poll.h>
#include <signal.h>
#include <sys/eventfd.h>
#include <sys/signalfd.h>
#include <sys/stat.h>
#include <unistd.h>

#include <algorithm>
#include <cerrno>
#include <chrono>
#include <cstdlib>
#include <cstring>
#include <iostream>
#include <memory>
#include <sstream>
#include <string_view>

#include "engine.h"

namespace duqishom {
namespace {

// The longest body that is taken, and the bytes of a pipe.
constexpr size_t LONGEST = size_t{1} << 28;
constexpr int PIPE = 1 << 20;

constexpr int REFUSED = 2, BROKEN = 70;

// A server that doesn't keep to the messages.
struct Malformed : std::runtime_error {
  Malformed() : std::runtime_error("a request is out of form") {}
};

void tell(const std::string& line) { std::cerr << "duqishom-bridge: " + line + "\n" << std::flush; }

// Ends this process at once: so its servers get the ends of their pipes, and no half reply.
[[noreturn]] void give_up(const std::string& why) {
  tell(why);
  _exit(BROKEN);
}

// The fields of a body, from the front.
class Fields {
 public:
  explicit Fields(std::string_view body) : left_(body) {}

  uint64_t number(size_t size) {
    uint64_t number = 0;
    for (unsigned char byte : take(size)) number = number << 8 | byte;
    return number;
  }

  Bytes field() { return Bytes(take(number(4))); }

  void end() const {
    if (!left_.empty()) throw Malformed();
  }

 private:
  std::string_view take(size_t size) {
    if (size > left_.size()) throw Malformed();
    const std::string_view taken = left_.substr(0, size);
    left_.remove_prefix(size);
    return taken;
  }

  std::string_view left_;
};

void put_number(Bytes& to, uint64_t number, size_t size) { to += eight(number).substr(8 - size); }

void put_field(Bytes& to, const Bytes& field) {
  put_number(to, field.size(), 4);
  to += field;
}

void put_cells(Bytes& to, const Cells& cells) {
  put_number(to, cells.size(), 4);
  for (const auto& [text, value] : cells) {
    put_field(to, text);
    put_field(to, value);
  }
}

// The file to which a server's messages are noted, or none.
class Recording {
 public:
  explicit Recording(const std::string& path) : path_(path) {
    if (path.empty()) return;
    file_ = open(path.c_str(), O_WRONLY | O_CREAT | O_EXCL | O_NOFOLLOW | O_CLOEXEC, 0600);
    if (file_ < 0) throw Failed(path + ": " + std::strerror(errno));
  }

  Recording(const Recording&) = delete;

  ~Recording() {
    if (file_ >= 0) close(file_);
  }

  // Adds the tablets, if they aren't the ones that were noted last.
  void note_tablets(std::shared_ptr<const Places> tablets) {
    if (file_ < 0 || tablets == tablets_) return;
    Bytes noted;
    put_number(noted, tablets->size(), 4);
    for (const Tablet& tablet : *tablets) {
      put_field(noted, tablet.object);
      put_number(noted, tablet.epoch, 8);
    }
    note(8, noted);
    tablets_ = std::move(tablets);
  }

  // Adds a frame, which begins with this number. If it can't be added, that is the end of all.
  void note(int code, const Bytes& rest = "") {
    if (file_ < 0) return;
    Bytes frame;
    put_number(frame, rest.size() + 1, 4);
    put_number(frame, static_cast<uint64_t>(code), 1);
    frame += rest;
    for (size_t at = 0; at < frame.size();) {
      const ssize_t count = write(file_, frame.data() + at, frame.size() - at);
      if (count < 0 && errno == EINTR) continue;
      if (count <= 0) give_up(path_ + ": " + std::strerror(errno));
      at += static_cast<size_t>(count);
    }
  }

 private:
  const std::string path_;
  int file_ = -1;
  std::shared_ptr<const Places> tablets_;
};

void put_place(Bytes& to, const Place& place) {
  put_field(to, place.object);
  put_number(to, place.version, 8);
}

// A Swap's edits, all of keys of its row.
std::vector<Edit> edits_of(Fields& fields, const Bytes& prefix) {
  std::vector<Edit> edits;
  for (uint64_t left = fields.number(4); left > 0; --left) {
    const bool is_put = fields.number(1) == 1;
    Edit edit{fields.field(), std::nullopt};
    if (is_put) edit.value = fields.field();
    if (edit.text.compare(0, prefix.size(), prefix) != 0) throw Malformed();
    edits.push_back(std::move(edit));
  }
  return edits;
}

Bytes fetched(Engine& engine, Recording& recording, Fields& fields) {
  const Bytes prefix = fields.field();
  fields.end();
  const Row row = engine.fetch(prefix);
  Bytes reply, noted;
  put_number(reply, row.guard, 8);
  put_field(noted, prefix);
  noted += reply;
  put_place(noted, row.at);
  recording.note(1, noted);
  put_cells(reply, row.cells);
  return reply;
}

Bytes swapped(Engine& engine, Recording& recording, Fields& fields) {
  const Bytes prefix = fields.field();
  const uint64_t guard = fields.number(8);
  const std::vector<Edit> edits = edits_of(fields, prefix);
  fields.end();
  Bytes noted, reply;
  put_field(noted, prefix);
  put_number(noted, guard, 8);
  put_number(noted, edits.size(), 4);
  for (const Edit& edit : edits) {
    put_number(noted, edit.value.has_value(), 1);
    put_field(noted, edit.text);
  }
  recording.note(2, noted);
  const std::optional<Place> done = engine.swap(prefix, guard, edits);
  put_number(reply, !done, 1);
  noted = reply;
  if (done) put_place(noted, *done);
  recording.note(0x82, noted);
  return reply;
}

Bytes paged(Engine& engine, Recording& recording, Fields& fields) {
  const Bytes from = fields.field();
  const uint32_t most = static_cast<uint32_t>(fields.number(4));
  fields.end();
  const Page page = engine.page(from, most);
  Bytes noted, reply;
  put_field(noted, from);
  put_number(noted, page.at.size(), 4);
  for (const Place& place : page.at) put_place(noted, place);
  recording.note(3, noted);
  put_number(reply, page.is_last, 1);
  put_cells(reply, page.cells);
  return reply;
}

Bytes drawn(Engine& engine, Recording& recording, Fields& fields) {
  fields.end();
  const Bytes stamp = eight(engine.draw());
  recording.note(4, stamp);
  return stamp;
}

Bytes published(Engine& engine, Recording& recording, const Bytes& server, Fields& fields) {
  const uint64_t floor = fields.number(8);
  fields.end();
  const Floor told = engine.publish(server, floor);
  recording.note(5, eight(floor) + eight(told.least) + eight(told.made) + eight(told.seen));
  return eight(told.least);
}

// The body of the reply to a message of rows, between two looks at the tablets.
Bytes answered_by_rows(Engine& engine, Recording& recording, uint64_t code, Fields& fields) {
  recording.note_tablets(engine.places());
  const Bytes reply = code == 1 ? fetched(engine, recording, fields)
                      : code == 2 ? swapped(engine, recording, fields)
                                  : paged(engine, recording, fields);
  recording.note_tablets(engine.places());
  return reply;
}

// The body of the reply to a body, which begins with a code, behind its own code.
Bytes answered(Engine& engine, Recording& recording, const Bytes& server, uint64_t code, Fields& fields) {
  if (code >= 1 && code <= 3) return answered_by_rows(engine, recording, code, fields);
  if (code == 4) return drawn(engine, recording, fields);
  if (code == 5) return published(engine, recording, server, fields);
  throw Malformed();
}

// The reply to a body: none if it needs none.
std::optional<Bytes> reply_to(Engine& engine, Recording& recording, const Bytes& server, std::string_view body) {
  Fields fields(body);
  const uint64_t code = fields.number(1);
  if (code == 6) {
    fields.end();
    recording.note(6);
    return std::nullopt;
  }
  try {
    const Bytes reply = answered(engine, recording, server, code, fields);
    return Bytes(1, static_cast<char>(code | 0x80)) + reply;
  } catch (const Fenced& why) {
    give_up(why.what());
  } catch (const Failed& why) {
    tell(server + ": " + why.what());
    recording.note(0xff, Bytes(1, static_cast<char>(code)));
    return Bytes(1, '\xff');
  }
}

// Two pipes, one for requests and one for replies.
class Pair {
 public:
  Pair(const std::string& folder, const std::string& name) : to_(folder + "/" + name + ".to"), from_(folder + "/" + name + ".from") {
    for (const std::string& path : {to_, from_}) {
      unlink(path.c_str());
      if (mkfifo(path.c_str(), 0600) != 0) throw Failed(path + ": " + std::strerror(errno));
    }
    // Neither waits for the server. Its end is seen at the pipe of requests, once it has opened it
    in_ = open(to_.c_str(), O_RDONLY | O_NONBLOCK | O_CLOEXEC);
    out_ = open(from_.c_str(), O_RDWR | O_NONBLOCK | O_CLOEXEC);
    if (in_ < 0 || out_ < 0) throw Failed(to_ + ": " + std::strerror(errno));
    for (int pipe : {in_, out_}) (void)fcntl(pipe, F_SETPIPE_SZ, PIPE);
  }

  ~Pair() { end(); }

  // Closes and removes the pipes.
  void end() {
    if (in_ < 0) return;
    close(in_);
    close(out_);
    in_ = out_ = -1;
    unlink(to_.c_str());
    unlink(from_.c_str());
  }

  int in() const { return in_; }

  // Reads what has come. False at the end.
  bool read_some() {
    char piece[65536];
    const ssize_t count = read(in_, piece, sizeof piece);
    if (count > 0) came_.append(piece, static_cast<size_t>(count));
    return count > 0 || (count < 0 && (errno == EAGAIN || errno == EINTR));
  }

  // The next whole body, which is taken.
  std::optional<Bytes> next() {
    if (came_.size() < 4) return std::nullopt;
    const size_t length = Fields(std::string_view(came_).substr(0, 4)).number(4);
    if (length > LONGEST) throw Malformed();
    if (came_.size() < 4 + length) return std::nullopt;
    Bytes body = came_.substr(4, length);
    came_.erase(0, 4 + length);
    return body;
  }

  // Writes a reply. False if the server ends, or this one is to end, before it has taken it.
  bool put(const Bytes& body, int stop) {
    Bytes frame;
    put_number(frame, body.size(), 4);
    frame += body;
    size_t at = 0;
    while (at < frame.size()) {
      const ssize_t count = write(out_, frame.data() + at, frame.size() - at);
      if (count > 0) at += static_cast<size_t>(count);
      if (count < 0 && errno != EAGAIN && errno != EINTR) return false;
      if (at == frame.size()) return true;
      pollfd each[] = {{out_, POLLOUT, 0}, {in_, 0, 0}, {stop, POLLIN, 0}};
      poll(each, 3, -1);
      if ((each[1].revents & POLLHUP) || each[2].revents) return false;
    }
    return true;
  }

 private:
  const std::string to_, from_;
  int in_, out_;
  Bytes came_;
};

// A server: a folder with its pipes, and the thread that answers it, one request after the other.
class Server {
 public:
  Server(Engine& engine, const std::string& folder, const std::string& name, const std::string& recording)
      : engine_(engine),
        name_(name),
        recording_(recording),
        rows_(folder, "rows"),
        stamps_(folder, "stamps"),
        stop_(eventfd(0, EFD_CLOEXEC)) {
    thread_ = std::thread([this] { run(); });
  }

  // Its pipes are closed before this returns: it can ask for nothing any more.
  ~Server() {
    const uint64_t one = 1;
    (void)!write(stop_, &one, sizeof one);
    thread_.join();
    close(stop_);
  }

  bool has_ended() const { return has_ended_; }

 private:
  void run() {
    try {
      while (turn()) {
      }
    } catch (const std::exception& why) {
      tell(name_ + " is left alone: " + why.what());
    }
    rows_.end();
    stamps_.end();
    has_ended_ = true;
  }

  bool turn() {
    pollfd each[] = {{rows_.in(), POLLIN, 0}, {stamps_.in(), POLLIN, 0}, {stop_, POLLIN, 0}};
    poll(each, 3, -1);
    if (each[2].revents) return false;
    return (!each[0].revents || serve(rows_)) && (!each[1].revents || serve(stamps_));
  }

  bool serve(Pair& pair) {
    if (!pair.read_some()) return false;
    while (const auto body = pair.next()) {
      const auto reply = reply_to(engine_, recording_, name_, *body);
      if (reply && !pair.put(*reply, stop_)) return false;
    }
    return true;
  }

  Engine& engine_;
  const std::string name_;
  Recording recording_;
  Pair rows_, stamps_;
  const int stop_;
  std::atomic<bool> has_ended_{false};
  std::thread thread_;
};

struct Options {
  Where where{"", "", "admin"};
  std::string machine, forgotten, split;
  std::vector<std::string> servers;
  bool initializes = false, tells = false, takes_more = false;
};

const char USAGE[] =
    "usage: duqishom-bridge --rados CONF --pool NAME [--user USER] [--machine NAME] --servers FOLDER.. [--more]\n"
    "       duqishom-bridge --rados CONF --pool NAME [--user USER] --init | --status | --forget MACHINE | --split END\n"
    "Each FOLDER gets the pipes of a server, whose name is the folder's. With --more each line of the standard input is\n"
    "one more folder, which takes the place of one with the same name, and the end of the input ends the bridge. Behind\n"
    "a tab a line may have the file of the server's recording.\n"
    "--init takes the ends of tablets, as lines of hexadecimal digits, from the standard input.\n"
    "--split takes the end of a tablet's first part in the same way, or the word largest: the tablet with most keys.\n";

[[noreturn]] void refuse() {
  std::cerr << USAGE;
  std::exit(REFUSED);
}

Options options_of(int count, char** words) {
  Options options;
  char host[256] = "";
  gethostname(host, sizeof host - 1);
  options.machine = host;
  for (int at = 1; at < count; ++at) {
    const std::string word = words[at];
    auto value = [&] { return at + 1 < count ? std::string(words[++at]) : (refuse(), std::string()); };
    if (word == "--rados") options.where.conf = value();
    else if (word == "--pool") options.where.pool = value();
    else if (word == "--user") options.where.user = value();
    else if (word == "--machine") options.machine = value();
    else if (word == "--forget") options.forgotten = value();
    else if (word == "--split") options.split = value();
    else if (word == "--init") options.initializes = true;
    else if (word == "--status") options.tells = true;
    else if (word == "--more") options.takes_more = true;
    else if (word == "--servers") while (at + 1 < count && words[at + 1][0] != '-') options.servers.push_back(words[++at]);
    else refuse();
  }
  if (options.where.conf.empty() || options.where.pool.empty() || options.machine.empty()) refuse();
  return options;
}

// The bytes of hexadecimal digits.
Bytes bytes_of_digits(const std::string& text) {
  Bytes bytes;
  for (size_t at = 0; at + 1 < text.size(); at += 2) bytes += static_cast<char>(std::stoi(text.substr(at, 2), nullptr, 16));
  return bytes;
}

// The bytes of the lines of the standard input, which are hexadecimal digits.
std::vector<Bytes> lines_of_bytes() {
  std::vector<Bytes> all;
  for (std::string line; std::getline(std::cin, line);) all.push_back(bytes_of_digits(line));
  return all;
}

using Servers = std::map<std::string, std::unique_ptr<Server>>;

// Serves the folder of a line, in the place of the one with the same name.
void take(Engine& engine, Servers& servers, const std::string& line) {
  const size_t tab = line.find('\t');
  std::string folder = line.substr(0, tab);
  const std::string recording = tab == std::string::npos ? "" : line.substr(tab + 1);
  while (folder.size() > 1 && folder.back() == '/') folder.pop_back();
  const std::string name = folder.substr(folder.rfind('/') + 1);
  servers.erase(name);
  engine.admit(name);
  servers[name] = std::make_unique<Server>(engine, folder, name, recording);
}

// Takes further folders until a signal or the end of the input.
void take_more(Engine& engine, Servers& servers, int signals, bool has_input) {
  std::string came;
  for (;;) {
    pollfd each[] = {{signals, POLLIN, 0}, {has_input ? STDIN_FILENO : -1, POLLIN, 0}};
    poll(each, 2, -1);
    if (each[0].revents) return;
    if (!each[1].revents) continue;
    char piece[4096];
    const ssize_t count = read(STDIN_FILENO, piece, sizeof piece);
    if (count <= 0) return;
    came.append(piece, static_cast<size_t>(count));
    for (size_t end; (end = came.find('\n')) != std::string::npos; came.erase(0, end + 1)) take(engine, servers, came.substr(0, end));
  }
}

// Ends this process after a signal or the end of the input, at once or, once it is ready, if it doesn't end by itself in
// some seconds: an operation never ends as long as the cluster doesn't answer.
void watch(int signals, bool has_input, const std::atomic<bool>& is_ready) {
  pollfd each[] = {{signals, POLLIN, 0}, {has_input ? STDIN_FILENO : -1, 0, 0}};
  poll(each, 2, -1);
  if (is_ready) std::this_thread::sleep_for(std::chrono::seconds(6));
  give_up("an operation of the cluster has no end");
}

int bridge(const Options& options, int signals) {
  static std::atomic<bool> is_ready{false};
  std::thread(watch, signals, options.takes_more, std::cref(is_ready)).detach();
  Engine& engine = *new Engine(options.where, options.machine);  // whose thread goes on to the end
  Servers servers;
  for (const std::string& folder : options.servers) take(engine, servers, folder);
  is_ready = true;
  tell("ready");
  take_more(engine, servers, signals, options.takes_more);
  // Servers that have ended just now are seen to have
  bool have_ended = false;
  for (int looks = 0; looks < 100 && !have_ended; ++looks) {
    have_ended = std::all_of(servers.begin(), servers.end(), [](const auto& each) { return each.second->has_ended(); });
    if (!have_ended) std::this_thread::sleep_for(std::chrono::milliseconds(10));
  }
  servers.clear();
  if (have_ended) engine.leave();
  const Counts& counts = engine.counts;
  std::ostringstream told;
  told << counts.fetches << " fetches, " << counts.swaps << " swaps of which " << counts.raced << " raced, " << counts.pages
       << " pages of which " << counts.pages_again << " were read again, " << counts.draws << " draws in "
       << counts.stamp_writes << " writes, " << counts.publishes << " floors";
  tell(told.str());
  std::cout.flush();
  _exit(0);
}

int run(const Options& options, int signals) {
  if (options.initializes) {
    initialize(options.where, lines_of_bytes());
  } else if (options.tells) {
    tell_status(options.where);
  } else if (!options.forgotten.empty()) {
    forget(options.where, options.forgotten);
  } else if (options.split == "largest") {
    split_largest(options.where);
  } else if (!options.split.empty()) {
    split(options.where, bytes_of_digits(options.split));
  } else if (!options.servers.empty() || options.takes_more) {
    return bridge(options, signals);
  } else {
    refuse();
  }
  return 0;
}

}  // namespace
}  // namespace duqishom

int main(int count, char** words) {
  using namespace duqishom;
  signal(SIGPIPE, SIG_IGN);
  // A file that may not grow is a failed write
  signal(SIGXFSZ, SIG_IGN);
  sigset_t ends;
  sigemptyset(&ends);
  for (int each : {SIGTERM, SIGINT}) sigaddset(&ends, each);
  pthread_sigmask(SIG_BLOCK, &ends, nullptr);
  const Options options = options_of(count, words);
  if (options.servers.empty() && !options.takes_more) pthread_sigmask(SIG_UNBLOCK, &ends, nullptr);
  try {
    return run(options, signalfd(-1, &ends, SFD_CLOEXEC));
  } catch (const std::exception& why) {
    tell(why.what());
    std::cout.flush();
    _exit(REFUSED);  // at once, whatever threads do
  }
}
