// map: answers requests as tabletd does, from one ordered map of C++'s standard library with the same three columns, but with no
// limits, no files and no proof: Begin, Get, Set, Step and Stop, Read, Commit and Scan of values, and Minor and Major, which change
// nothing here. With --clients the client's number goes before a request and its reply; other words mean nothing.
#include <cstdint>
#include <cstdio>
#include <cstdlib>
#include <cstring>
#include <functional>
#include <map>
#include <string>
#include <string_view>
#include <unordered_map>
#include <vector>

#include <unistd.h>

namespace {

using std::string;
using std::string_view;

constexpr uint64_t kAny = UINT64_MAX;
constexpr size_t kPiece = 262144, kMostBytes = 57344;

// The kind of a column, which follows the cell's place in a key: a value by its start, a lock, a record of a commit.
constexpr string_view kEnd("\0\0", 2);
constexpr string_view kData("data\0\0", 6), kLock("lock\0\0", 6), kWrite("write\0\0", 7);

uint64_t Number(const char* at, int size) {
  uint64_t number = 0;
  for (int i = 0; i < size; i++) number = number << 8 | static_cast<unsigned char>(at[i]);
  return number;
}

void Add(string& out, uint64_t number, int size) {
  for (int i = size - 1; i >= 0; i--) out.push_back(static_cast<char>(number >> 8 * i));
}

void AddField(string& out, string_view text) {
  Add(out, text.size(), 4);
  out.append(text);
}

// The fields of a request.
struct Fields {
  const char* at;
  bool Flag() { return *at++ != 0; }
  uint32_t Count() { return at += 4, Number(at - 4, 4); }
  uint64_t Stamp() { return at += 8, Number(at - 8, 8); }
  string_view Text() {
    size_t size = Number(at, 4);
    at += 4 + size;
    return {at - size, size};
  }
};

// A text in which a byte 0 is followed by FF, with two bytes 0 behind it.
void AddSpelled(string& out, string_view text) {
  for (char byte : text) {
    out.push_back(byte);
    if (byte == 0) out.push_back('\xFF');
  }
  out.append(kEnd);
}

// Takes the text that is spelled so at the front of a place.
string TakeSpelled(string_view& place) {
  string text;
  size_t at = 0;
  for (; place.substr(at, 2) != kEnd; at += place[at] == 0 ? 2 : 1) text.push_back(place[at]);
  place.remove_prefix(at + 2);
  return text;
}

// The three columns of all cells, in one map by key: place, column and stamp, the newest first.
class Cells {
 public:
  // The newest entry of a column with a stamp from `least` to `most`.
  bool Newest(string_view place, string_view column, uint64_t least, uint64_t most, string_view* value) {
    SetKey(place, column, most);
    auto found = map_.lower_bound(key_);
    if (found == map_.end() || found->first.size() != key_.size()) return false;
    if (found->first.compare(0, key_.size() - 8, key_, 0, key_.size() - 8) != 0) return false;
    *value = found->second;
    return ~Number(found->first.data() + key_.size() - 8, 8) >= least;
  }

  // The place of the first cell behind this place: empty if there is none.
  string_view PlaceBehind(string_view place) {
    key_.assign(place);
    if (!place.empty()) key_.push_back('\xFF');
    auto found = map_.lower_bound(key_);
    if (found == map_.end()) return {};
    size_t family = found->first.find(kEnd, found->first.find(kEnd) + 2);
    return string_view(found->first).substr(0, family + 2);
  }

  void Put(string_view place, string_view column, uint64_t stamp, string_view value) {
    SetKey(place, column, stamp);
    map_.insert_or_assign(key_, string(value));
  }

  void Erase(string_view place, string_view column, uint64_t stamp) {
    SetKey(place, column, stamp);
    map_.erase(key_);
  }

 private:
  void SetKey(string_view place, string_view column, uint64_t stamp) {
    key_.assign(place);
    key_.append(column);
    Add(key_, ~stamp, 8);
  }

  std::map<string, string, std::less<>> map_;
  string key_;
};

struct Buffered {
  string place, value;
};

struct Session {
  size_t next = 0;
  uint64_t commit = 0;
  std::vector<Buffered> writes;
};

class Server {
 public:
  void Answer(string_view request, string& out) {
    Fields fields{request.data() + 1};
    out.push_back(static_cast<char>(request[0] | 0x80));
    switch (request[0]) {
      case 0x01:
        sessions_.emplace(++last_, Session());
        return Add(out, last_, 8);
      case 0x02:
        return Get(fields, out);
      case 0x03:
        return Set(fields);
      case 0x04:
        return Step(fields.Stamp(), out);
      case 0x05:
        sessions_.erase(fields.Stamp());
        return;
      case 0x31:
        return Scan(fields, out);
      case 0x32:
        return Commit(fields, out);
      case 0x33:
        return Read(fields, out);
      case 0x0A:
      case 0x0C:
        return;
    }
    // BadRequest
    out.back() = '\xFF';
    out.push_back('\x16');
  }

 private:
  // The place of a cell: its row, in which a byte 0 is followed by FF, and its family, each with two bytes 0 behind it.
  const string& Place(Fields& fields) {
    place_.clear();
    AddSpelled(place_, fields.Text());
    AddSpelled(place_, fields.Text());
    return place_;
  }

  void Get(Fields& fields, string& out) {
    uint64_t start = fields.Stamp();
    Find(start, Place(fields), out);
  }

  // A session that stays open, and its Gets.
  void Read(Fields& fields, string& out) {
    uint64_t start = fields.Stamp();
    if (start == 0) sessions_.emplace(start = ++last_, Session());
    if (!fields.Flag()) sessions_.erase(start);
    uint32_t count = fields.Count();
    Add(out, start, 8);
    Add(out, count, 4);
    for (; count > 0; count--) Find(start, Place(fields), out);
  }

  // Puts values and records of a session, if no cell has a lock or a newer record.
  void Commit(Fields& fields, string& out) {
    uint64_t start = fields.Stamp();
    if (start == 0) start = ++last_; else sessions_.erase(start);
    writes_.clear();
    for (uint32_t count = fields.Count(); count > 0; count--) {
      const string& place = Place(fields);
      if (!fields.Flag() || !IsFree(place, start)) {
        std::fprintf(stderr, "map: a deletion or a conflict\n");
        std::exit(1);
      }
      writes_.push_back({place, string(fields.Text())});
    }
    uint64_t commit = ++last_;
    for (const Buffered& write : writes_) {
      cells_.Put(write.place, kData, start, write.value);
      PutRecord(write.place, start, commit);
    }
    out.push_back(1);
    Add(out, start, 8);
    Add(out, commit, 8);
  }

  void Find(uint64_t start, const string& place, string& out) {
    string_view value;
    if (cells_.Newest(place, kLock, 0, start, &value)) {
      std::fprintf(stderr, "map: a lock that is read\n");
      std::exit(1);
    }
    bool is_there = cells_.Newest(place, kWrite, 0, start, &value);
    if (is_there) {
      uint64_t written = Number(value.data(), 8);
      cells_.Newest(place, kData, written, written, &value);
    }
    out.push_back(is_there);
    if (is_there) AddField(out, value);
  }

  // The cells behind a cell that have a value, up to a row, of all families.
  void Scan(Fields& fields, string& out) {
    uint64_t start = fields.Stamp();
    bool has_keys_alone = fields.Flag();
    string place = fields.Flag() ? Place(fields) : "", end;
    bool has_end = fields.Flag();
    if (has_end) AddSpelled(end, fields.Text());
    if (fields.Flag()) fields.Text();
    string items, found;
    uint32_t count = 0;
    string_view next;
    for (uint32_t cells = fields.Count(); cells > 0 && items.size() < kMostBytes; cells--) {
      next = cells_.PlaceBehind(place);
      if (next.empty() || (has_end && next > end && next.substr(0, end.size()) != end)) {
        next = {};
        break;
      }
      place = next;
      found.clear();
      Find(start, place, found);
      if (found[0] == 0) continue;
      AddCell(place, items);
      items.append(has_keys_alone ? "\3" : found);
      count++;
    }
    out.push_back(next.empty() ? 1 : 2);
    if (!next.empty()) AddCell(place, out);
    Add(out, count, 4);
    out.append(items);
  }

  void AddCell(string_view place, string& out) {
    AddField(out, TakeSpelled(place));
    AddField(out, TakeSpelled(place));
  }

  void Set(Fields& fields) {
    Session& session = sessions_.at(fields.Stamp());
    const string& place = Place(fields);
    string_view value = fields.Text();
    for (Buffered& write : session.writes)
      if (write.place == place) return void(write.value.assign(value));
    session.writes.push_back({place, string(value)});
  }

  void Step(uint64_t start, string& out) {
    auto found = sessions_.find(start);
    Session& session = found->second;
    size_t count = session.writes.size();
    if (session.commit != 0) {
      Settle(start, session);
      out.push_back(session.next == 1 ? 4 : 6);
      if (session.next == 1) Add(out, session.commit, 8);
      if (session.next > 1) Add(out, session.next << 16 | count, 4);
      if (session.next == count) sessions_.erase(found);
    } else if (session.next < count) {
      bool is_held = Hold(start, session);
      out.push_back(is_held ? 1 : 2);
      Add(out, is_held ? session.next << 16 | count : session.next, is_held ? 4 : 2);
      if (!is_held) sessions_.erase(found);
    } else {
      session.commit = ++last_;
      session.next = 0;
      out.push_back(3);
      Add(out, session.commit, 8);
    }
  }

  // Whether a cell has no lock and no newer record.
  bool IsFree(const string& place, uint64_t start) {
    string_view value;
    return !cells_.Newest(place, kLock, 0, kAny, &value) && !cells_.Newest(place, kWrite, start, kAny, &value);
  }

  void PutRecord(const string& place, uint64_t start, uint64_t commit) {
    char text[8];
    for (int i = 0; i < 8; i++) text[i] = static_cast<char>(start >> 8 * (7 - i));
    cells_.Put(place, kWrite, commit, string_view(text, 8));
  }

  // Puts value and lock, if the cell has no lock and no newer record.
  bool Hold(uint64_t start, Session& session) {
    const Buffered& write = session.writes[session.next++];
    if (!IsFree(write.place, start)) return false;
    cells_.Put(write.place, kData, start, write.value);
    cells_.Put(write.place, kLock, start, session.writes[0].place);
    return true;
  }

  // Replaces the lock with the commit record.
  void Settle(uint64_t start, Session& session) {
    const Buffered& write = session.writes[session.next++];
    string_view lock;
    if (!cells_.Newest(write.place, kLock, start, start, &lock)) {
      std::fprintf(stderr, "map: a lock that is gone\n");
      std::exit(1);
    }
    PutRecord(write.place, start, session.commit);
    cells_.Erase(write.place, kLock, start);
  }

  Cells cells_;
  std::unordered_map<uint64_t, Session> sessions_;
  uint64_t last_ = 0;
  string place_;
  std::vector<Buffered> writes_;
};

void Write(const string& out) {
  for (size_t at = 0; at < out.size();) {
    ssize_t written = write(1, out.data() + at, out.size() - at);
    if (written <= 0) std::exit(1);
    at += written;
  }
}

}  // namespace

int main(int count, char** words) {
  size_t number = 0;
  for (int i = 1; i < count; i++) number = string_view(words[i]) == "--clients" ? 4 : number;
  Server& server = *new Server;
  std::vector<char> piece(kPiece);
  string in, out;
  for (ssize_t came; (came = read(0, piece.data(), kPiece)) > 0;) {
    in.append(piece.data(), came);
    size_t at = 0;
    for (size_t size; in.size() - at >= 4 && in.size() - at - 4 >= (size = Number(&in[at], 4)); at += 4 + size) {
      size_t head = out.size();
      out.append(4, '\0');
      out.append(in, at + 4, number);
      string_view request = string_view(in).substr(at + 4 + number, size - number);
      // A client that is gone
      if (request.empty()) out.push_back('\x85'); else server.Answer(request, out);
      string length;
      Add(length, out.size() - head - 4, 4);
      out.replace(head, 4, length);
    }
    in.erase(0, at);
    Write(out);
    out.clear();
  }
  _exit(0);
}
