// leveldb_log write FOLDER BATCH SECONDS: puts batches of BATCH new rows into a new store of LevelDB for SECONDS
// seconds, each batch in one synced write, and prints the rows per second.
// leveldb_log fill FOLDER COUNT: puts COUNT rows, which stay in the log, and ends without closing the store.
// leveldb_log open FOLDER: prints the seconds in which a store opens.
#include <cstdio>
#include <cstdlib>
#include <memory>
#include <random>
#include <string>
#include <unistd.h>

#include <leveldb/db.h>
#include <leveldb/write_batch.h>

#include "driver.h"

namespace {

constexpr int kValueBytes = 100;

// The maximum bytes of a memtable, and so of a log.
constexpr int kBufferBytes = 64 << 20;

std::unique_ptr<leveldb::DB> Opened(const char* folder) {
  leveldb::Options options;
  options.create_if_missing = true;
  options.write_buffer_size = kBufferBytes;
  leveldb::DB* opened = nullptr;
  Check(leveldb::DB::Open(options, folder, &opened).ok(), "the folder can't be opened");
  return std::unique_ptr<leveldb::DB>(opened);
}

// Puts new rows in one synced write.
void Put(leveldb::DB* db, std::mt19937_64* dice, int count) {
  leveldb::WriteBatch batch;
  for (int number = 0; number < count; number++) {
    char row[32];
    std::snprintf(row, sizeof row, "%016llx", static_cast<unsigned long long>((*dice)()));
    batch.Put(row, std::string(kValueBytes, 'v'));
  }
  leveldb::WriteOptions options;
  options.sync = true;
  Check(db->Write(options, &batch).ok(), "a write failed");
}

}  // namespace

int main(int argc, char** argv) {
  const std::string what = argc > 1 ? argv[1] : "";
  std::mt19937_64 dice(53);
  const double began = Seconds();
  if (what == "write" && argc == 5) {
    std::unique_ptr<leveldb::DB> db = Opened(argv[2]);
    const int count = std::atoi(argv[3]);
    const double from = Seconds();
    double rows = 0;
    while (Seconds() - from < std::atof(argv[4])) {
      Put(db.get(), &dice, count);
      rows += count;
    }
    std::printf("%.3f\n", rows / (Seconds() - from));
  } else if (what == "fill" && argc == 4) {
    std::unique_ptr<leveldb::DB> db = Opened(argv[2]);
    for (int left = std::atoi(argv[3]); left > 0; left -= 250) Put(db.get(), &dice, left < 250 ? left : 250);
    _exit(0);
  } else if (what == "open" && argc == 3) {
    std::unique_ptr<leveldb::DB> db = Opened(argv[2]);
    std::printf("%.6f\n", Seconds() - began);
  } else {
    Check(false, "usage: leveldb_log write FOLDER BATCH SECONDS | fill FOLDER COUNT | open FOLDER");
  }
}
