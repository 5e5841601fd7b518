// tabletd_upkeep overwrite COUNT TABLETS FOLDER PROGRAM WORD..: starts tabletd with these words, of which one names FOLDER, splits
// it into TABLETS tablets, commits COUNT writes to the same cells with COUNT Commits, and collects old versions as a gateway does.
// tabletd_upkeep load COUNT TABLETS FOLDER PROGRAM WORD..: commits COUNT new rows, one a Commit, and reads rows beside.
// tabletd_upkeep major COUNT TABLETS FOLDER PROGRAM WORD..: opens a FOLDER with COUNT rows and goes on so until a Major of
// tablet 1 is answered.
// Each prints figures, a name and a number a line, in seconds and bytes.
#include <csignal>
#include <cstdlib>
#include <deque>
#include <functional>
#include <string>
#include <string_view>

#include "driver.h"
#include "pipe.h"
#include "upkeep.h"

namespace {

// The commits after which a gateway collects old versions, and its visits in one request.
constexpr uint64_t kCommitsBeforeCollection = 10'000;
constexpr uint64_t kVisits = 4;

constexpr char kRefused = '\xff';
constexpr size_t kNumberBytes = 8;

// Requests of the protocol, in bytes.
const std::string kNoStart(kNumberBytes, '\0'), kCollectBegin = "\x08", kMajor("\x0c\0\0\0\1", 5);

// The place of a cell's answer in the reply to a Read of one cell.
constexpr size_t kAnswerAt = 13;
constexpr char kValue = 1;

// What a CollectStep answers.
constexpr char kMore = 1, kCollected = 3;

// A program, and what takes each reply that it owes.
class Server {
 public:
  explicit Server(char** words) : program_(Started(words)) {}

  pid_t process() const { return program_.child; }
  uint64_t refused() const { return refused_; }

  // Sends a request, and has its reply taken so.
  void Ask(const std::string& body, std::function<void(std::string_view)> take) {
    program_.unsent += Field(body);
    takes_.push_back(std::move(take));
  }

  // Sends what waits, and takes what comes, for a millisecond at most.
  void Turn() {
    Exchange(&program_, 1);
    TakeReplies(&program_, [this](std::string_view reply) {
      const auto take = std::move(takes_.front());
      takes_.pop_front();
      if (reply[0] == kRefused) refused_++;
      take(reply);
    });
  }

  // Takes all replies that are owed.
  void Drain() {
    while (!takes_.empty()) Turn();
  }

  // Ends the input, and checks that the program ends well.
  void End() {
    Drain();
    close(program_.in);
    int status = 0;
    waitpid(program_.child, &status, 0);
    Check(status == 0, "tabletd doesn't end well");
  }

 private:
  Program program_;
  std::deque<std::function<void(std::string_view)>> takes_;
  uint64_t refused_ = 0;
};

// Commits of one cell each, of which some wait: of the rows of numbers from `first` on, or again and again of the first cells.
class Commits {
 public:
  Commits(Server* server, uint64_t first, uint64_t cells) : server_(server), sent_(first), done_(first), cells_(cells) {}

  uint64_t done() const { return done_; }

  // Sends more, up to the row of a number.
  void Send(uint64_t end) {
    for (; sent_ < end && sent_ < done_ + kAhead; sent_++) {
      const uint64_t row = cells_ == 0 ? sent_ : sent_ % cells_;
      server_->Ask(Commit(RowOf(row), ValueOf(sent_)), [this, since = Seconds()](std::string_view reply) {
        Check(reply[0] == kRefused || reply.substr(0, kDone.size()) == kDone, "a Commit conflicts");
        waits_.Add(Seconds() - since);
        done_++;
      });
    }
  }

  void Print() const { waits_.Print("commit"); }

 private:
  Server* server_;
  uint64_t sent_, done_, cells_;
  Waits waits_;
};

// Reads of one cell each, as many a second as are due.
class Gets {
 public:
  explicit Gets(Server* server) : server_(server) {}

  // Sends what is due, where there are so many rows.
  void Send(uint64_t rows) {
    while (due_.IsDue(rows)) {
      const std::string cell = Field(due_.Next(rows)) + Field("c");
      const std::string body = "\x33" + kNoStart + std::string("\0\0\0\0\1", 5) + cell;
      server_->Ask(body, [this, since = Seconds()](std::string_view reply) {
        Check(reply.size() > kAnswerAt && reply[kAnswerAt] == kValue, "a row isn't found");
        waits_.Add(Seconds() - since);
      });
    }
  }

  void Print() const { waits_.Print("get"); }

 private:
  Server* server_;
  Due due_;
  Waits waits_;
};

// Collectors of old versions: one begins so many commits after the end of the one before, or as many as that one had visits.
class Collection {
 public:
  explicit Collection(Server* server) : server_(server) {}

  // Begins, if it is time.
  void Begin(uint64_t commits) {
    if (is_open_) last_ = commits;
    if (is_open_ || commits < last_ + due_) return;
    is_open_ = true;
    steps_ = 0;
    server_->Ask(kCollectBegin, [this](std::string_view reply) {
      if (reply[0] == kRefused) {
        is_open_ = false;
        return;
      }
      name_ = reply.substr(1, kNumberBytes);
      Step();
    });
  }

  void Print() const { PrintFigure("collections", whole_); }

 private:
  void Step() {
    server_->Ask("\x09" + name_ + std::string("\0\0\0", 3) + static_cast<char>(kVisits), [this](std::string_view reply) {
      if (reply[0] != kRefused && reply[1] == kMore) {
        steps_++;
        Step();
        return;
      }
      is_open_ = false;
      due_ = std::max(kCommitsBeforeCollection, steps_ * kVisits);
      if (reply[0] == kRefused) return;
      Check(reply[1] == kCollected, "a collector is blocked");
      whole_++;
    });
  }

  Server* server_;
  std::string name_;
  bool is_open_ = false;
  uint64_t last_ = 0, due_ = kCommitsBeforeCollection, steps_ = 0, whole_ = 0;
};

// Splits tablet 1 into so many of the same number of rows.
void Split(Server* server, uint64_t tablets) {
  const double began = Seconds();
  for (uint64_t place = 1; place < tablets; place++) {
    server->Ask("\x0d" + Field(RowAt(UINT64_MAX / tablets * place)), [](std::string_view) {});
  }
  server->Drain();
  PrintFigure("splits", Seconds() - began);
}

// Commits up to the row of a number.
void Write(Server* server, const std::string& folder, uint64_t count, uint64_t cells) {
  Commits commits(server, 0, cells);
  Gets gets(server);
  Collection collection(server);
  Observer observer(folder);
  const double began = Seconds(), used = ProcessorSeconds(server->process());
  while (commits.done() < count) {
    commits.Send(count);
    if (cells == 0) gets.Send(commits.done());
    if (cells != 0) collection.Begin(commits.done());
    server->Turn();
    observer.Look(commits.done());
  }
  PrintFigure("seconds", Seconds() - began);
  server->Drain();
  PrintFigure("processor", ProcessorSeconds(server->process()) - used);
  PrintFigure("memory_peak", PeakBytes(server->process()));
  observer.Print();
  commits.Print();
  gets.Print();
  collection.Print();
}

// Has tablet 1 compacted, and goes on with commits and reads until that is answered.
void Compact(Server* server, const std::string& folder, uint64_t count) {
  Commits commits(server, count, 0);
  Gets gets(server);
  Observer observer(folder);
  ForgetPeak(server->process());
  const double began = Seconds(), open = MemoryBytes(server->process());
  bool is_done = false;
  server->Ask(kMajor, [&is_done](std::string_view) { is_done = true; });
  while (!is_done) {
    commits.Send(UINT64_MAX);
    gets.Send(count);
    server->Turn();
    observer.Look(commits.done());
  }
  PrintFigure("seconds", Seconds() - began);
  server->Drain();
  PrintFigure("memory_open", open);
  PrintFigure("memory_more", PeakBytes(server->process()) - open);
  observer.Print();
  commits.Print();
  gets.Print();
}

}  // namespace

int main(int argc, char** argv) {
  Check(argc > 6, "usage: tabletd_upkeep overwrite|load|major COUNT TABLETS FOLDER PROGRAM WORD..");
  const std::string what = argv[1], folder = argv[4];
  const uint64_t count = std::strtoull(argv[2], nullptr, 10), tablets = std::strtoull(argv[3], nullptr, 10);
  std::signal(SIGPIPE, SIG_IGN);
  const double began = Seconds();
  Server server(argv + 5);
  // A Status is answered once the folder is open
  server.Ask(std::string("\x34\0\0\0\1", 5), [](std::string_view) {});
  server.Drain();
  PrintFigure("opening", Seconds() - began);
  if (what == "major") {
    Compact(&server, folder, count);
  } else {
    Split(&server, tablets);
    Write(&server, folder, count, what == "overwrite" ? kCells : 0);
  }
  PrintFigure("refused", server.refused());
  server.End();
}
