// leveldb_scan FOLDER COUNT PASSES: writes the rows of the shape scan into a new store of LevelDB, as one sorted run,
// and reads all of them PASSES times with an iterator over a snapshot, with checksums and without caching blocks. It
// prints the processor seconds of all passes.
#include <cstdio>
#include <cstdlib>
#include <memory>
#include <string>

#include <leveldb/db.h>
#include <leveldb/write_batch.h>

#include "driver.h"

namespace {

// The number of rows written, or read into one buffer, at once.
constexpr int kBatch = 1000;

double ProcessorSeconds() { return SecondsOf(CLOCK_PROCESS_CPUTIME_ID); }

std::string Text(const char* form, int number) {
  char text[32];
  std::snprintf(text, sizeof text, form, number);
  return text;
}

void Write(leveldb::DB* db, int count) {
  for (int first = 0; first < count; first += kBatch) {
    leveldb::WriteBatch batch;
    for (int number = first; number < count && number < first + kBatch; number++) {
      batch.Put(Text("row%06d", number), Text("%08d", number));
    }
    Check(db->Write(leveldb::WriteOptions(), &batch).ok(), "a write failed");
  }
  db->CompactRange(nullptr, nullptr);
}

// Reads all rows, into a buffer for each kBatch of them, and returns their number.
int Read(leveldb::DB* db) {
  leveldb::ReadOptions options;
  options.verify_checksums = true;
  options.fill_cache = false;
  options.snapshot = db->GetSnapshot();
  std::unique_ptr<leveldb::Iterator> at(db->NewIterator(options));
  std::string buffer;
  int count = 0;
  for (at->SeekToFirst(); at->Valid(); at->Next()) {
    if (count % kBatch == 0) buffer.clear();
    buffer.append(at->key().data(), at->key().size());
    buffer.append(at->value().data(), at->value().size());
    count++;
  }
  Check(at->status().ok(), "a read failed");
  const std::string last = Text("row%06d", count - 1) + Text("%08d", count - 1);
  Check(buffer.size() >= last.size() && buffer.substr(buffer.size() - last.size()) == last, "the last row is another one");
  at.reset();
  db->ReleaseSnapshot(options.snapshot);
  return count;
}

}  // namespace

int main(int argc, char** argv) {
  Check(argc == 4, "usage: leveldb_scan FOLDER COUNT PASSES");
  const int count = std::atoi(argv[2]);
  const int passes = std::atoi(argv[3]);
  leveldb::Options options;
  options.create_if_missing = true;
  options.error_if_exists = true;
  leveldb::DB* opened = nullptr;
  Check(leveldb::DB::Open(options, argv[1], &opened).ok(), "the folder can't be opened");
  std::unique_ptr<leveldb::DB> db(opened);
  Write(db.get(), count);
  const double before = ProcessorSeconds();
  for (int pass = 0; pass < passes; pass++) {
    Check(Read(db.get()) == count, "rows are missing");
  }
  const double after = ProcessorSeconds();
  std::printf("%.9f\n", after - before);
}
