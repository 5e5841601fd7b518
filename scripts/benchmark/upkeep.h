// What the programs of bench_upkeep share: rows and values, how long requests wait, and what a process and a folder take.
#pragma once

#include <algorithm>
#include <array>
#include <cmath>
#include <cstdint>
#include <cstdio>
#include <cstring>
#include <filesystem>
#include <fstream>
#include <string>
#include <sys/types.h>

#include "driver.h"

// How many commits wait for an answer at most.
constexpr int kAhead = 16;

// The Gets of a second beside a load, once there are so many rows.
constexpr double kGetsPerSecond = 2000;
constexpr uint64_t kRowsBeforeGets = 1000;

// The cells that are overwritten.
constexpr uint64_t kCells = 1000;

constexpr size_t kValueBytes = 100;

// The seconds between two looks at a folder, and between two lines of progress.
constexpr double kSecondsOfLook = 0.1, kSecondsOfLine = 10;

// A number in the place of another, as if it was drawn: no two have the same.
inline uint64_t DrawnOf(uint64_t number) {
  number += 0x9e3779b97f4a7c15;
  number = (number ^ number >> 30) * 0xbf58476d1ce4e5b9;
  number = (number ^ number >> 27) * 0x94d049bb133111eb;
  return number ^ number >> 31;
}

// The row of 16 bytes that begins with the digits of this number.
inline std::string RowAt(uint64_t place) {
  char row[32];
  std::snprintf(row, sizeof row, "%016llx", static_cast<unsigned long long>(place));
  return row;
}

// The row of a number: those of 0, 1, 2 and so on are in random order.
inline std::string RowOf(uint64_t number) { return RowAt(DrawnOf(number)); }

// Random bytes, drawn by a number.
inline std::string ValueOf(uint64_t number) {
  std::string value(kValueBytes, '\0');
  for (size_t at = 0; at < value.size(); at += sizeof number) {
    number = DrawnOf(~number);
    std::memcpy(&value[at], &number, std::min(sizeof number, value.size() - at));
  }
  return value;
}

inline void PrintFigure(const std::string& name, double figure) { std::printf("%s %.9g\n", name.c_str(), figure); }

// How long requests waited: counts in steps of a hundredth of a wait, and the longest.
class Waits {
 public:
  void Add(double seconds) {
    counts_[std::clamp<double>(std::log(seconds / kLeast) / std::log(kStep), 0, counts_.size() - 1)]++;
    count_++;
    longest_ = std::max(longest_, seconds);
  }

  void Join(const Waits& other) {
    for (size_t at = 0; at < counts_.size(); at++) counts_[at] += other.counts_[at];
    count_ += other.count_;
    longest_ = std::max(longest_, other.longest_);
  }

  // The seconds that all but a share of them waited at most.
  double AllBut(double share) const {
    uint64_t left = count_;
    for (size_t at = 0; at < counts_.size(); at++) {
      left -= counts_[at];
      if (left <= share * count_) return std::min(longest_, kLeast * std::pow(kStep, at + 1));
    }
    return longest_;
  }

  void Print(const std::string& name) const {
    PrintFigure(name + "_count", count_);
    PrintFigure(name + "_p99", AllBut(0.01));
    PrintFigure(name + "_p999", AllBut(0.001));
    PrintFigure(name + "_longest", longest_);
  }

 private:
  static constexpr double kLeast = 1e-7, kStep = 1.01;
  std::array<uint64_t, 2400> counts_ = {};
  uint64_t count_ = 0;
  double longest_ = 0;
};

// Which Gets are due, and when: so many a second, once there are rows enough, of the first half of them.
class Due {
 public:
  bool IsDue(uint64_t rows) {
    const double now = Seconds();
    if (rows < kRowsBeforeGets) next_ = now;
    if (rows < kRowsBeforeGets || now < next_) return false;
    next_ += 1 / kGetsPerSecond;
    return true;
  }

  // When the last one was due.
  double last() const { return next_ - 1 / kGetsPerSecond; }

  // The row that is read next.
  std::string Next(uint64_t rows) { return RowOf(DrawnOf(count_++) % (rows / 2)); }

 private:
  double next_ = Seconds();
  uint64_t count_ = 0;
};

// The bytes in a line of /proc/PID/status.
inline double StatusBytes(pid_t process, const std::string& name) {
  std::ifstream lines("/proc/" + std::to_string(process) + "/status");
  for (std::string line; std::getline(lines, line);) {
    if (line.compare(0, name.size(), name) == 0) return std::atof(line.c_str() + name.size()) * 1024;
  }
  Check(false, "a process has no status");
  return 0;
}

// The bytes of memory that a process has, and the most that it has had since ForgetPeak.
inline double MemoryBytes(pid_t process) { return StatusBytes(process, "VmRSS:"); }
inline double PeakBytes(pid_t process) { return StatusBytes(process, "VmHWM:"); }

inline void ForgetPeak(pid_t process) {
  std::ofstream clear("/proc/" + std::to_string(process) + "/clear_refs");
  Check(static_cast<bool>(clear << "5" << std::flush), "the peak of memory can't be set back");
}

inline double ProcessorSeconds(pid_t process) {
  clockid_t clock;
  Check(clock_getcpuclockid(process, &clock) == 0, "a process has no clock");
  return SecondsOf(clock);
}

// The bytes of a folder's files, of which some may go meanwhile.
inline double FolderBytes(const std::string& folder) {
  double bytes = 0;
  for (const auto& file : std::filesystem::directory_iterator(folder)) {
    std::error_code gone;
    const uintmax_t size = file.file_size(gone);
    if (!gone) bytes += size;
  }
  return bytes;
}

// Looks at a folder now and then, and says on the standard error how many commits are done.
class Observer {
 public:
  explicit Observer(const std::string& folder) : folder_(folder) {}

  void Look(uint64_t done) {
    const double now = Seconds();
    if (now >= look_) {
      largest_ = std::max(largest_, FolderBytes(folder_));
      look_ = now + kSecondsOfLook;
    }
    if (now >= line_) {
      std::fprintf(stderr, "  %llu commits\n", static_cast<unsigned long long>(done));
      line_ = now + kSecondsOfLine;
    }
  }

  // The size of the folder now, and the largest that was seen.
  void Print() const {
    const double bytes = FolderBytes(folder_);
    PrintFigure("folder", bytes);
    PrintFigure("folder_largest", std::max(largest_, bytes));
  }

 private:
  std::string folder_;
  double look_ = 0, line_ = Seconds() + kSecondsOfLine, largest_ = 0;
};
