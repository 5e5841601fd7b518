// The rows, the stamps and the floors of all servers, in one pool of a RADOS cluster.
//
// In the pool's namespace "duqishom" there are the objects
//   places    omap: b'e' + end, or b'l' for the last tablet -> epoch (8 bytes) + the name of the tablet's object
//   tablet.N  omap: b'k' + key text -> value; b'g' + row prefix -> the row's guard (8 bytes); b'e' -> epoch (8 bytes, and a
//             byte while it is frozen); b's' -> how it is split (split.cc)
//   stamps    omap: b'm' + machine -> the version of its last draw but one (16 hexadecimal digits)
//   floors    omap: b'f' + machine + '/' + server -> floor (16 hexadecimal digits); b'a' + machine -> its bridge's address
// A tablet has the keys below its end and from the end before it on. Guards are never removed; they move with their rows.
#pragma once

#include <atomic>
#include <condition_variable>
#include <cstdint>
#include <future>
#include <map>
#include <memory>
#include <mutex>
#include <optional>
#include <set>
#include <stdexcept>
#include <string>
#include <thread>
#include <utility>
#include <vector>

#include <rados/librados.hpp>

namespace duqishom {

using Bytes = std::string;
using Cells = std::vector<std::pair<Bytes, Bytes>>;
using Omap = std::map<std::string, librados::bufferlist>;

// The engine failed, and nothing was changed.
struct Failed : std::runtime_error {
  using std::runtime_error::runtime_error;
};

// Nobody knows whether a change was made: the server that asked for it must not go on.
struct Unknown : std::runtime_error {
  using std::runtime_error::runtime_error;
};

// Another bridge has taken this one's place, or an operator has shut it out: nothing may be answered any more.
struct Fenced : std::runtime_error {
  using std::runtime_error::runtime_error;
};

struct Tablet {
  std::optional<Bytes> end;  // none for the last one
  std::string object;
  uint64_t epoch;
};

using Places = std::vector<Tablet>;

// An object at a version: where in the order of all changes something was done or seen.
struct Place {
  std::string object;
  uint64_t version = 0;
};

// A tablet's epoch as its object has it. While it is frozen it is read, and nothing in it changes.
struct Epoch {
  uint64_t number;
  bool is_frozen;
};

struct Row {
  uint64_t guard = 0;
  Cells cells;
  Place at;
};

struct Page {
  bool is_last = false;
  Cells cells;
  std::vector<Place> at;
};

// The least floor, the version of the floors that saw it, and that which this floor made, or 0 if a higher one stayed.
struct Floor {
  uint64_t least = 0, seen = 0, made = 0;
};

// A value for a key, or none to erase it.
struct Edit {
  Bytes text;
  std::optional<Bytes> value;
};

struct Counts {
  std::atomic<uint64_t> fetches{0}, swaps{0}, raced{0}, pages{0}, pages_again{0}, draws{0}, stamp_writes{0}, publishes{0};
};

// The names of the objects, and the first bytes of their keys.
extern const std::string PLACES, STAMPS, FLOORS, EPOCH, LAST, SPLIT;
constexpr char END = 'e', KEY = 'k', GUARD = 'g', MARK = 'm', FLOOR = 'f', ADDRESS = 'a';

std::string key(char kind, const Bytes& rest);
librados::bufferlist list_of(const Bytes& bytes);
Bytes bytes_of(const librados::bufferlist& list);
void check(const std::string& what, int done);

// The value of an entry, which is empty if there is none.
Bytes entry(const Omap& entries, const std::string& key);

// What a write compares an entry with. One that isn't there is as an empty one.
std::pair<librados::bufferlist, int> is(const Bytes& value);

Bytes eight(uint64_t number);
uint64_t eight_of(const Bytes& bytes);
Bytes digits(uint64_t number);
uint64_t digits_of(const Bytes& text);

Epoch epoch_of(const Omap& entries);

// A pool, the file that tells of its cluster, and the user of the cluster as whom this program comes.
struct Where {
  std::string conf, pool, user;
};

// A pool of a cluster, by operations on one object.
class Pool {
 public:
  // Connects. Failed if there is no such cluster or pool.
  explicit Pool(const Where& where);
  ~Pool();

  // One operation on one object: 0 or a negative error, and the object's version.
  int read(const std::string& object, librados::ObjectReadOperation& operation, uint64_t* version = nullptr);
  int write(const std::string& object, librados::ObjectWriteOperation& operation, uint64_t* version = nullptr);

  // All entries of an object whose keys begin so. Failed if it can't be read. They are of one moment, if they are few, or
  // if the object had one version in all reads.
  Omap entries(const std::string& object, const std::string& prefix, std::set<uint64_t>* versions = nullptr);

  // The version of an object, or 0 if there is none.
  uint64_t version(const std::string& object);

  // Writes an entry if another one is as it is given: false if it is not.
  bool put_if(const std::string& object, const std::string& key, const Bytes& was, const Bytes& value);

  // Takes away the floors of a machine's servers, whose number is returned, and the address of its bridge.
  size_t remove_machine(const std::string& machine);

  // No operation of the client at this address is done any more.
  void shut_out(const std::string& address);

  std::string address() const { return rados_.get_addrs(); }

 private:
  librados::Rados rados_;
  librados::IoCtx io_;
};

// The thread of a bridge that goes on with splits whose splitters have ended.
class Mender {
 public:
  explicit Mender(Pool& pool) : pool_(pool) {}

  // Looks at all tablets soon.
  void wake();
  void mend_for_ever();

 private:
  void watch(const std::string& object);

  Pool& pool_;
  std::mutex lock_;
  std::condition_variable wait_;
  bool is_awake_ = false;
};

class Engine {
 public:
  // Takes the place of the last bridge of this machine, which is shut out if it didn't end in order.
  Engine(const Where& where, const std::string& machine);

  // A server begins, which has published no floor, unless it has an earlier one.
  void admit(const Bytes& server);

  Row fetch(const Bytes& prefix);
  // Where the edits were done: none if the row has another guard.
  std::optional<Place> swap(const Bytes& prefix, uint64_t guard, const std::vector<Edit>& edits);
  Page page(const Bytes& from, uint32_t most);
  uint64_t draw();
  // The least floor, which isn't above this one. A server's own never falls.
  Floor publish(const Bytes& server, uint64_t floor);

  // The tablets, as they were when they were read last.
  std::shared_ptr<const Places> places();

  // All servers of this machine have ended: they have no floors, and nobody needs to be shut out.
  void leave();

  Counts counts;

 private:
  struct Marks {
    Epoch epoch;
    uint64_t guard;
  };

  bool is_at(const Tablet& tablet, const Omap& told);
  void look_again(const Tablet& tablet);
  Marks marks(const Tablet& tablet, const Bytes& prefix);
  std::optional<Row> fetch_once(const Bytes& prefix);
  std::optional<Page> page_once(const Bytes& from, size_t most);
  bool swap_once(const Bytes& prefix, uint64_t guard, const std::vector<Edit>& edits, std::optional<Place>& done);
  void take_place();
  void open_stamps();
  uint64_t write_stamp();
  void draw_for_ever();

  Pool pool_;
  const std::string machine_;
  Mender mender_{pool_};
  std::mutex places_lock_;
  std::shared_ptr<const Places> places_;

  std::mutex draws_lock_;
  std::condition_variable draws_wait_;
  std::vector<std::promise<uint64_t>> draws_;
  uint64_t last_version_ = 0;
};

// The places as of one moment.
Places read_places(Pool& pool);

// The number of the tablet that has a text.
size_t place_of(const Places& places, const Bytes& text);

// What an operator does: each prints what it has done.
void initialize(const Where& where, const std::vector<Bytes>& ends);
void tell_status(const Where& where);
void forget(const Where& where, const std::string& machine);
void split(const Where& where, const Bytes& end);
void split_largest(const Where& where);

Bytes hexadecimal(const Bytes& bytes);

// A line about the split of a tablet, or none: split OBJECT END OTHER STAGE.
std::string split_line(Pool& pool, const Tablet& tablet);

}  // namespace duqishom
