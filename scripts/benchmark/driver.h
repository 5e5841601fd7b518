// What the programs that drive a store share: a clock, an end with a message, and the fields of frames.
#pragma once

#include <cerrno>
#include <cstdint>
#include <cstdio>
#include <cstdlib>
#include <ctime>
#include <string>

// The seconds that a clock shows.
inline double SecondsOf(clockid_t clock) {
  timespec now;
  clock_gettime(clock, &now);
  return now.tv_sec + now.tv_nsec * 1e-9;
}

inline double Seconds() { return SecondsOf(CLOCK_MONOTONIC); }

// Ends the program with its name and this message, unless all is well.
inline void Check(bool is_well, const char* what) {
  if (!is_well) {
    std::fprintf(stderr, "%s: %s\n", program_invocation_short_name, what);
    std::exit(1);
  }
}

// A field, or a frame: its length in four bytes, and its bytes.
inline std::string Field(const std::string& bytes) {
  std::string field;
  for (int shift = 24; shift >= 0; shift -= 8) field += static_cast<char>(bytes.size() >> shift);
  return field + bytes;
}

// The number in the four bytes at a place, as a length is written.
inline uint32_t NumberAt(const std::string& bytes, size_t at) {
  uint32_t number = 0;
  for (int byte = 0; byte < 4; byte++) number = number << 8 | static_cast<uint8_t>(bytes[at + byte]);
  return number;
}
