// gateway_load SOCKET SHAPE CLIENTS PROCESSES SECONDS: so many clients of a gateway, in so many processes, ask for SECONDS
// seconds, and check each reply. It prints how many reads or commits were answered, and how long a client of the first
// process waits for one of its rounds: the median, in millionths of a second. A round of a client is, by the shape,
//
//   read     a raw read of an empty cell
//   ahead    64 of these in one write
//   commit   a commit of one cell: Begin, and then Set and three Steps in one write
#include <algorithm>
#include <cstring>
#include <poll.h>
#include <string>
#include <sys/mman.h>
#include <sys/socket.h>
#include <sys/un.h>
#include <sys/wait.h>
#include <unistd.h>
#include <vector>

#include "driver.h"

namespace {

constexpr int kAhead = 64;
constexpr int kRows = 1000;

const std::string kBegin("\0\0\0\x01\x01", 5), kBegun("\0\0\0\x09\x81", 5), kNothing("\0\0\0\x02\x91\0", 6);
const std::string kSet("\0\0\0\x01\x83\0\0\0\x06\x84\x01\0\x01\0\x01\0\0\0\x0a\x84\x03", 21);
const std::string kCommitted("\0\0\0\x0a\x84\x04", 6);
constexpr int kStart = 8;

// The replies to a Set and three Steps: the first bytes are always the same, and the last one has two stamps.
const size_t kCommittedAt = kSet.size() + kStart, kCommitSize = kCommittedAt + kCommitted.size() + kStart;

struct Shape {
  bool is_commit;
  int reads;
};

// A client: its connection, the size of the replies that it awaits, what came of them, and since when its round goes on.
struct Client {
  int number, socket;
  size_t wanted;
  std::string came;
  bool has_begun;
  int turn;
  double since;
};

// What a process has done.
struct Result {
  double rounds, median;
};

bool Begins(const std::string& bytes, const std::string& with, size_t at = 0) {
  return bytes.compare(at, with.size(), with) == 0;
}

void Send(Client* client, const std::string& requests, size_t wanted) {
  Check(write(client->socket, requests.data(), requests.size()) == static_cast<ssize_t>(requests.size()), "no write");
  client->wanted = wanted;
  client->came.clear();
}

void SendReads(Client* client, int count) {
  static const std::string read = Field("\x11" + Field("row") + Field("c") + "\x01" + std::string(16, '\0'));
  std::string requests;
  for (int each = 0; each < count; each++) requests += read;
  Send(client, requests, count * kNothing.size());
}

// Sends the rest of a commit, whose session has begun.
void SendCommit(Client* client) {
  const std::string start = client->came.substr(kBegun.size());
  const std::string row = std::to_string(client->number) + " " + std::to_string(client->turn++ % kRows);
  const std::string step = Field("\x04" + start);
  Send(client, Field("\x03" + start + Field(row) + Field("c") + Field("v")) + step + step + step, kCommitSize);
}

void BeginRound(Client* client, const Shape& shape) {
  client->since = Seconds();
  client->has_begun = false;
  if (shape.is_commit) {
    Send(client, kBegin, kBegun.size() + kStart);
  } else {
    SendReads(client, shape.reads);
  }
}

// Takes all replies that are awaited, and goes on. Returns whether a round has ended.
bool GoOn(Client* client, const Shape& shape) {
  const std::string& came = client->came;
  if (!shape.is_commit) {
    for (size_t at = 0; at < came.size(); at += kNothing.size()) Check(Begins(came, kNothing, at), "a read finds something");
    return true;
  }
  if (!client->has_begun) {
    Check(Begins(came, kBegun), "no session");
    client->has_begun = true;
    SendCommit(client);
    return false;
  }
  Check(Begins(came, kSet) && Begins(came, kCommitted, kCommittedAt), "no commit");
  return true;
}

// Reads what has come. Returns whether all is there that is awaited.
bool IsAnswered(Client* client) {
  static char piece[1 << 16];
  const ssize_t count = read(client->socket, piece, sizeof piece);
  Check(count > 0, "the connection has ended");
  client->came.append(piece, count);
  return client->came.size() == client->wanted;
}

int Connected(const char* path) {
  sockaddr_un address = {};
  address.sun_family = AF_UNIX;
  std::strncpy(address.sun_path, path, sizeof address.sun_path - 1);
  const int end = socket(AF_UNIX, SOCK_STREAM, 0);
  Check(connect(end, reinterpret_cast<sockaddr*>(&address), sizeof address) == 0, "no gateway");
  return end;
}

// What the clients from one number up to another do in so many seconds.
Result Driven(const char* path, const Shape& shape, int from, int to, double seconds) {
  std::vector<Client> clients;
  std::vector<pollfd> ends;
  for (int number = from; number < to; number++) {
    clients.push_back({number, Connected(path), 0, "", false, 0, 0});
    ends.push_back({clients.back().socket, POLLIN, 0});
  }
  std::vector<float> waits;
  for (Client& client : clients) BeginRound(&client, shape);
  for (const double end = Seconds() + seconds; Seconds() < end;) {
    // A client that is alone waits in its read
    if (clients.size() > 1) Check(poll(ends.data(), ends.size(), -1) > 0, "no poll");
    for (size_t place = 0; place < clients.size(); place++) {
      Client& client = clients[place];
      if (clients.size() > 1 && ends[place].revents == 0) continue;
      if (!IsAnswered(&client) || !GoOn(&client, shape)) continue;
      waits.push_back(Seconds() - client.since);
      BeginRound(&client, shape);
    }
  }
  Check(!waits.empty(), "no round has ended");
  std::nth_element(waits.begin(), waits.begin() + waits.size() / 2, waits.end());
  return {static_cast<double>(waits.size()), waits[waits.size() / 2]};
}

Shape ShapeOf(const std::string& name) {
  Check(name == "read" || name == "ahead" || name == "commit", "the shape is read, ahead or commit");
  return {name == "commit", name == "ahead" ? kAhead : 1};
}

}  // namespace

int main(int argc, char** argv) {
  Check(argc == 6, "usage: gateway_load SOCKET SHAPE CLIENTS PROCESSES SECONDS");
  const Shape shape = ShapeOf(argv[2]);
  const int clients = std::atoi(argv[3]), processes = std::atoi(argv[4]);
  void* shared = mmap(nullptr, processes * sizeof(Result), PROT_READ | PROT_WRITE, MAP_SHARED | MAP_ANONYMOUS, -1, 0);
  Check(shared != MAP_FAILED, "no memory");
  Result* results = static_cast<Result*>(shared);
  for (int each = 0; each < processes; each++) {
    const pid_t child = fork();
    Check(child >= 0, "no process");
    if (child > 0) continue;
    results[each] = Driven(argv[1], shape, clients * each / processes, clients * (each + 1) / processes, std::atof(argv[5]));
    _exit(0);
  }
  int status = 0;
  double rounds = 0;
  while (wait(&status) > 0) Check(status == 0, "a process of clients has failed");
  for (int each = 0; each < processes; each++) rounds += results[each].rounds;
  std::printf("%.0f %.2f\n", rounds * shape.reads, results[0].median * 1e6);
}
