// A running tabletd: requests go into one pipe, and replies come from another.
#pragma once

#include <fcntl.h>
#include <poll.h>
#include <string>
#include <string_view>
#include <sys/wait.h>
#include <unistd.h>

#include "driver.h"

// The bytes of a frame's length.
constexpr size_t kLengthBytes = 4;

// The first bytes of the answer Done to a Commit.
constexpr std::string_view kDone = "\xb2\x01";

struct Program {
  pid_t child;
  int in, out;
  std::string unsent, unread;
};

// Starts a program with these words.
inline Program Started(char** words) {
  int in[2], out[2];
  Check(pipe(in) == 0 && pipe(out) == 0, "no pipe");
  const pid_t child = fork();
  Check(child >= 0, "no process");
  if (child == 0) {
    dup2(in[0], 0);
    dup2(out[1], 1);
    for (int end : {in[0], in[1], out[0], out[1]}) close(end);
    execv(words[0], words);
    _exit(99);
  }
  close(in[0]);
  close(out[1]);
  fcntl(in[1], F_SETFL, O_NONBLOCK);
  return {child, in[1], out[0], "", ""};
}

// Sends what the pipe takes, and waits until a reply comes or the pipe takes more, or so many milliseconds (-1: without end).
inline void Exchange(Program* program, int milliseconds = -1) {
  pollfd ends[] = {{program->out, POLLIN, 0}, {program->in, POLLOUT, 0}};
  Check(poll(ends, program->unsent.empty() ? 1 : 2, milliseconds) >= 0, "no poll");
  if (ends[1].revents != 0) {
    const ssize_t sent = write(program->in, program->unsent.data(), program->unsent.size());
    Check(sent >= 0, "tabletd takes no more");
    program->unsent.erase(0, sent);
  }
  if (ends[0].revents != 0) {
    static char piece[1 << 20];
    const ssize_t came = read(program->out, piece, sizeof piece);
    Check(came > 0, "tabletd has ended");
    program->unread.append(piece, came);
  }
}

// Has each reply that has come taken, without its length, and returns how many there were.
template <typename Take>
int TakeReplies(Program* program, Take take) {
  const std::string& bytes = program->unread;
  int taken = 0;
  size_t at = 0;
  while (at + kLengthBytes <= bytes.size()) {
    const uint32_t length = NumberAt(bytes, at);
    if (at + kLengthBytes + length > bytes.size()) break;
    take(std::string_view(bytes).substr(at + kLengthBytes, length));
    at += kLengthBytes + length;
    taken++;
  }
  program->unread.erase(0, at);
  return taken;
}

// A Commit in a session of its own that sets one cell of the family c.
inline std::string Commit(const std::string& row, const std::string& value) {
  static const std::string head = "\x32" + std::string(8, '\0') + std::string("\0\0\0\1", 4);
  return head + Field(row) + Field("c") + "\x01" + Field(value);
}
