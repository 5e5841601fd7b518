// tabletd_log BATCH AHEAD SECONDS PROGRAM WORD..: starts tabletd with these words, sends it Commits of one new row each for
// SECONDS seconds, and prints the rows per second that were answered Done. As soon as at most AHEAD Commits wait for an
// answer, it sends more, so that BATCH wait. With AHEAD 0 a batch is sent when all of the one before is answered.
#include <csignal>
#include <cstdio>
#include <cstdlib>
#include <random>
#include <string>

#include "driver.h"
#include "pipe.h"

namespace {

constexpr int kValueBytes = 100;

// The frame of a Commit of one new row.
std::string NewCommit(std::mt19937_64* dice) {
  char row[32];
  std::snprintf(row, sizeof row, "%016llx", static_cast<unsigned long long>((*dice)()));
  return Field(Commit(row, std::string(kValueBytes, 'v')));
}

// Takes the replies that have come, each of which must be Done, and returns how many.
int Answered(Program* program) {
  return TakeReplies(program, [](std::string_view reply) {
    Check(reply.substr(0, kDone.size()) == kDone, "a Commit isn't answered Done");
  });
}

}  // namespace

int main(int argc, char** argv) {
  Check(argc > 4, "usage: tabletd_log BATCH AHEAD SECONDS PROGRAM WORD..");
  const int batch = std::atoi(argv[1]), ahead = std::atoi(argv[2]);
  const double seconds = std::atof(argv[3]);
  Program program = Started(argv + 4);
  std::mt19937_64 dice(53);
  double rows = 0, from = 0;
  int waiting = 0;
  // The first batch isn't counted: the program opens its folder meanwhile.
  while (from == 0 || Seconds() - from < seconds) {
    if (waiting <= ahead) {
      for (; waiting < batch; waiting++) program.unsent += NewCommit(&dice);
    }
    Exchange(&program);
    const int answered = Answered(&program);
    waiting -= answered;
    if (from != 0) rows += answered;
    if (from == 0 && answered > 0 && waiting <= ahead) from = Seconds();
  }
  std::printf("%.3f\n", rows / (Seconds() - from));
  close(program.in);
  kill(program.child, SIGKILL);
  waitpid(program.child, nullptr, 0);
}
