// peer_upkeep overwrite COUNT FOLDER: puts COUNT values into the same cells of a new store, each in a synced write.
// peer_upkeep load COUNT FOLDER: puts COUNT new rows, each in a synced write, and reads rows beside.
// peer_upkeep major COUNT FOLDER: opens a store of COUNT rows and goes on so until all of it is compacted.
// The store is LevelDB's or, with ROCKSDB, RocksDB's. As many threads write as commits wait for tabletd; another one reads. Each
// prints figures, a name and a number a line, in seconds and bytes.
#include <algorithm>
#include <atomic>
#include <chrono>
#include <cstdlib>
#include <memory>
#include <mutex>
#include <string>
#include <thread>
#include <unistd.h>
#include <vector>

#ifdef ROCKSDB
#include <rocksdb/db.h>
#include <rocksdb/filter_policy.h>
#include <rocksdb/table.h>
namespace peer = rocksdb;
#else
#include <leveldb/db.h>
#include <leveldb/filter_policy.h>
namespace peer = leveldb;
#endif

#include "driver.h"
#include "upkeep.h"

namespace {

constexpr int kFilterBits = 10;
constexpr std::chrono::microseconds kPause(100), kLook(20'000);

// A store with filters, which compresses nothing.
std::unique_ptr<peer::DB> Opened(const std::string& folder) {
  peer::Options options;
  options.create_if_missing = true;
  options.compression = peer::kNoCompression;
#ifdef ROCKSDB
  rocksdb::BlockBasedTableOptions table;
  table.filter_policy.reset(rocksdb::NewBloomFilterPolicy(kFilterBits));
  options.table_factory.reset(rocksdb::NewBlockBasedTableFactory(table));
#else
  options.filter_policy = leveldb::NewBloomFilterPolicy(kFilterBits);
#endif
  peer::DB* opened = nullptr;
  Check(peer::DB::Open(options, folder, &opened).ok(), "the folder can't be opened");
  return std::unique_ptr<peer::DB>(opened);
}

void CompactAll(peer::DB* db) {
#ifdef ROCKSDB
  Check(db->CompactRange(rocksdb::CompactRangeOptions(), nullptr, nullptr).ok(), "no compaction");
#else
  db->CompactRange(nullptr, nullptr);
#endif
}

// What threads do to a store: they write values of numbers up to an end, and read rows, until they are stopped.
class Work {
 public:
  Work(peer::DB* db, uint64_t first, uint64_t end, uint64_t cells) : db_(db), end_(end), cells_(cells), next_(first), done_(first) {
    for (int each = 0; each < kAhead; each++) threads_.emplace_back([this] { Write(); });
    if (cells == 0) threads_.emplace_back([this] { Read(); });
  }

  uint64_t done() const { return done_; }

  void Stop() {
    is_stopped_ = true;
    for (std::thread& thread : threads_) thread.join();
  }

  void Print() const {
    commits_.Print("commit");
    gets_.Print("get");
  }

 private:
  void Write() {
    peer::WriteOptions options;
    options.sync = true;
    Waits waits;
    for (uint64_t number; !is_stopped_ && (number = next_++) < end_;) {
      const std::string row = RowOf(cells_ == 0 ? number : number % cells_), value = ValueOf(number);
      const double since = Seconds();
      Check(db_->Put(options, row, value).ok(), "a write failed");
      waits.Add(Seconds() - since);
      done_++;
    }
    const std::lock_guard<std::mutex> lock(mutex_);
    commits_.Join(waits);
  }

  // Reads rows, which no thread writes any more. A Get that is due during another waits for it.
  void Read() {
    Due due;
    for (std::string value; !is_stopped_; std::this_thread::sleep_for(kPause)) {
      const double began = Seconds();
      while (due.IsDue(done_) && !is_stopped_) {
        const double since = std::max(began, due.last());
        Check(db_->Get(peer::ReadOptions(), due.Next(done_), &value).ok(), "a row isn't found");
        gets_.Add(Seconds() - since);
      }
    }
  }

  peer::DB* db_;
  const uint64_t end_, cells_;
  std::atomic<uint64_t> next_, done_;
  std::atomic<bool> is_stopped_ = false;
  std::mutex mutex_;
  Waits commits_, gets_;
  std::vector<std::thread> threads_;
};

void Write(peer::DB* db, const std::string& folder, uint64_t count, uint64_t cells) {
  Observer observer(folder);
  const double began = Seconds(), used = ProcessorSeconds(getpid());
  Work work(db, 0, count, cells);
  while (work.done() < count) {
    observer.Look(work.done());
    std::this_thread::sleep_for(kLook);
  }
  PrintFigure("seconds", Seconds() - began);
  work.Stop();
  PrintFigure("processor", ProcessorSeconds(getpid()) - used);
  PrintFigure("memory_peak", PeakBytes(getpid()));
  observer.Print();
  work.Print();
}

void Compact(peer::DB* db, const std::string& folder, uint64_t count) {
  Observer observer(folder);
  ForgetPeak(getpid());
  const double began = Seconds(), open = MemoryBytes(getpid());
  Work work(db, count, UINT64_MAX, 0);
  CompactAll(db);
  PrintFigure("seconds", Seconds() - began);
  work.Stop();
  PrintFigure("memory_open", open);
  PrintFigure("memory_more", PeakBytes(getpid()) - open);
  observer.Print();
  work.Print();
}

}  // namespace

int main(int argc, char** argv) {
  Check(argc == 4, "usage: peer_upkeep overwrite|load|major COUNT FOLDER");
  const std::string what = argv[1], folder = argv[3];
  const uint64_t count = std::strtoull(argv[2], nullptr, 10);
  const double began = Seconds();
  const std::unique_ptr<peer::DB> db = Opened(folder);
  PrintFigure("opening", Seconds() - began);
  if (what == "major") {
    Compact(db.get(), folder, count);
  } else {
    Write(db.get(), folder, count, what == "overwrite" ? kCells : 0);
  }
}
