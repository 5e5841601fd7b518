// Splits of tablets, while bridges serve.
//
// A split gives the keys from an end on to a new object, by writes that are one operation on one object each:
//   1  the tablet's object: its epoch is marked as frozen, and what is done stands beside it
//   2  the new object, several times: keys and guards are copied, as long as it has no epoch
//   3  the new object: it gets the next epoch
//   4  the tablet's object: it gets the next epoch
//   5  the places: both tablets, in the place of the one
//   6  the tablet's object, several times: keys and guards that have moved are removed, and at last what is done
// Each compares what the one before it has left, so that it is done once, whoever does it, and however late. So anybody can
// go on where somebody has ended. Why rows stay whole is said in docs/CLUSTER.md.
#include <signal.h>

#include <cerrno>
#include <chrono>
#include <cstdlib>
#include <functional>
#include <iostream>
#include <random>

#include "engine.h"

namespace duqishom {

using librados::ObjectReadOperation;
using librados::ObjectWriteOperation;

namespace {

// What a piece has at most: so many keys, and a key behind so many bytes of values.
constexpr size_t PIECE = 1000, BYTES = size_t{8} << 20;

// For how long nothing happens before a bridge goes on with a split, and the pause after a failure.
constexpr std::chrono::seconds PATIENCE{1}, PAUSE{5};

// What is behind a frozen epoch, behind a row in a text, and behind that in the end of a tablet.
const Bytes FROZEN(1, '\1'), ROW_END(2, '\0'), FENCE("\0\0\xff", 3);

// How a tablet is split, as its object has it.
struct Split {
  std::string object;
  Epoch epoch;
  Bytes plan;  // the new object, a byte 00, and the end of the tablet's first part; empty if it isn't split

  std::string other() const { return plan.substr(0, plan.find('\0')); }
  Bytes end() const { return plan.substr(plan.find('\0') + 1); }

  // Whether it has come as far as entries of the object say.
  bool is_at(const Omap& told) const {
    const Epoch now = epoch_of(told);
    return now.number == epoch.number && now.is_frozen == epoch.is_frozen && entry(told, SPLIT) == plan;
  }
};

Split split_of(Pool& pool, const std::string& object) {
  Omap told;
  ObjectReadOperation operation;
  operation.omap_get_vals_by_keys({EPOCH, SPLIT}, &told, nullptr);
  check(object, pool.read(object, operation));
  return {object, epoch_of(told), entry(told, SPLIT)};
}

// For tests: the process stops itself at the stop of this number, to be killed there, or to go on late.
void stop_here() {
  static const char* const number = std::getenv("DUQISHOM_SPLIT_STOP");
  static std::atomic<int> count{0};
  if (number && ++count == std::atoi(number)) raise(SIGSTOP);
}

// Makes one write: false if something that it compares is otherwise.
bool step(Pool& pool, const std::string& object, ObjectWriteOperation& operation) {
  stop_here();
  const int done = pool.write(object, operation);
  if (done != -ECANCELED) check(object, done);
  return done == 0;
}

bool freeze(Pool& pool, const Tablet& tablet, const Bytes& plan) {
  ObjectWriteOperation operation;
  operation.omap_cmp({{EPOCH, is(eight(tablet.epoch))}, {SPLIT, is("")}}, nullptr);
  operation.omap_set({{EPOCH, list_of(eight(tablet.epoch) + FROZEN)}, {SPLIT, list_of(plan)}});
  return step(pool, tablet.object, operation);
}

// Leaves entries of so many bytes: whether all are left.
bool cut(Omap& found) {
  size_t bytes = 0;
  auto at = found.begin();
  for (; at != found.end() && bytes < BYTES; ++at) bytes += at->second.length();
  const bool are_all = at == found.end();
  found.erase(at, found.end());
  return are_all;
}

// Writes something for each piece of the keys and guards from the end on, until it isn't done, or the split is further.
void in_pieces(Pool& pool, const Split& split, const std::function<bool(const Omap&)>& write) {
  for (const char kind : {KEY, GUARD}) {
    // No key is the end itself, which is that of a row
    std::string after = key(kind, split.end());
    size_t most = PIECE;
    for (bool more = true; more;) {
      Omap found, told;
      ObjectReadOperation operation;
      operation.omap_get_vals2(after, std::string(1, kind), most, &found, &more, nullptr);
      operation.omap_get_vals_by_keys({EPOCH, SPLIT}, &told, nullptr);
      check(split.object, pool.read(split.object, operation));
      if (!split.is_at(told)) return;
      if (found.empty()) break;
      if (!cut(found)) {
        more = true;
        most = found.size();
      }
      if (!write(found)) return;
      after = found.rbegin()->first;
    }
  }
}

void copy(Pool& pool, const Split& split) {
  in_pieces(pool, split, [&](const Omap& found) {
    ObjectWriteOperation operation;
    operation.create(false);
    operation.omap_cmp({{EPOCH, is("")}}, nullptr);
    operation.omap_set(found);
    return step(pool, split.other(), operation);
  });
}

// Gives the new object, and then the old one, the next epoch.
void change_epochs(Pool& pool, const Split& split) {
  const Bytes next = eight(split.epoch.number + 1);
  ObjectWriteOperation opens, closes;
  opens.create(false);
  opens.omap_cmp({{EPOCH, is("")}}, nullptr);
  opens.omap_set({{EPOCH, list_of(next)}});
  step(pool, split.other(), opens);
  closes.omap_cmp({{EPOCH, is(eight(split.epoch.number) + FROZEN)}, {SPLIT, is(split.plan)}}, nullptr);
  closes.omap_set({{EPOCH, list_of(next)}});
  step(pool, split.object, closes);
}

// Puts both tablets into the places, unless they are there.
void change_places(Pool& pool, const Split& split) {
  stop_here();
  for (const Tablet& tablet : read_places(pool)) {
    if (tablet.object != split.object || tablet.epoch + 1 != split.epoch.number) continue;
    const std::string name = tablet.end ? key(END, *tablet.end) : LAST;
    const Bytes next = eight(split.epoch.number);
    ObjectWriteOperation operation;
    operation.omap_cmp({{name, is(eight(tablet.epoch) + tablet.object)}}, nullptr);
    operation.omap_set({{key(END, split.end()), list_of(next + split.object)}, {name, list_of(next + split.other())}});
    step(pool, PLACES, operation);
  }
}

void clean(Pool& pool, const Split& split) {
  bool is_done = true;
  const auto compare = [&](ObjectWriteOperation& operation) { operation.omap_cmp({{SPLIT, is(split.plan)}}, nullptr); };
  in_pieces(pool, split, [&](const Omap& found) {
    std::set<std::string> moved;
    for (const auto& each : found) moved.insert(each.first);
    ObjectWriteOperation operation;
    compare(operation);
    operation.omap_rm_keys(moved);
    return is_done = step(pool, split.object, operation);
  });
  ObjectWriteOperation operation;
  compare(operation);
  operation.omap_rm_keys({SPLIT});
  if (is_done) step(pool, split.object, operation);
}

// Does all that is left of a tablet's split, from where it is.
void finish(Pool& pool, const std::string& object) {
  for (;;) {
    const Split split = split_of(pool, object);
    if (split.plan.empty()) return;
    if (split.epoch.is_frozen) {
      copy(pool, split);
      change_epochs(pool, split);
    } else {
      change_places(pool, split);
      clean(pool, split);
    }
  }
}

void tell_done(const Split& split) {
  std::cout << "done " << split.object << " " << hexadecimal(split.end()) << " " << split.other() << "\n";
}

// Finishes all splits that are under way: the ends that came of them.
std::set<Bytes> finish_all(Pool& pool) {
  std::set<Bytes> ends;
  for (const Tablet& tablet : read_places(pool)) {
    const Split split = split_of(pool, tablet.object);
    if (split.plan.empty()) continue;
    finish(pool, tablet.object);
    tell_done(split);
    ends.insert(split.end());
  }
  return ends;
}

// A new object for each split: names of objects are never used again.
std::string new_object() {
  std::random_device chance;
  return "tablet." + digits(uint64_t{chance()} << 32 | chance());
}

void split_at(Pool& pool, const Bytes& end) {
  for (;;) {
    const Places places = read_places(pool);
    for (const Tablet& tablet : places) {
      if (tablet.end == end) throw Failed("this row is the last one of a tablet already");
    }
    const Tablet& tablet = places[place_of(places, end)];
    const Split split{tablet.object, {tablet.epoch, true}, new_object() + Bytes(1, '\0') + end};
    const bool is_begun = freeze(pool, tablet, split.plan);
    finish(pool, tablet.object);
    if (is_begun) return tell_done(split);
  }
}

// Looks at the texts of a tablet's keys in their order, until a look is the last one.
void look_through(Pool& pool, const Tablet& tablet, const std::function<bool(const Bytes&)>& look) {
  std::string after(1, KEY);
  for (bool more = true; more;) {
    std::set<std::string> found;
    ObjectReadOperation operation;
    operation.omap_get_keys2(after, UINT64_MAX, &found, &more, nullptr);
    check(tablet.object, pool.read(tablet.object, operation));
    for (const std::string& name : found) {
      const Bytes text = name.substr(1);
      if (name[0] != KEY || (tablet.end && text >= *tablet.end) || !look(text)) return;
    }
    if (found.empty()) return;
    after = *found.rbegin();
  }
}

size_t count_of(Pool& pool, const Tablet& tablet) {
  size_t count = 0;
  look_through(pool, tablet, [&](const Bytes&) { return ++count, true; });
  return count;
}

// The end of the first row that makes half of a tablet's keys with those before it, or else of the last row but one.
Bytes middle_of(Pool& pool, const Tablet& tablet, size_t keys) {
  Bytes last, middle;
  size_t count = 0;
  look_through(pool, tablet, [&](const Bytes& text) {
    const Bytes end = text.substr(0, text.find(ROW_END)) + FENCE;
    if (!last.empty() && end != last) {
      middle = last;
      if (2 * count >= keys) return false;
    }
    last = end;
    ++count;
    return true;
  });
  if (middle.empty()) throw Failed("the tablet with most keys has one row");
  return middle;
}

}  // namespace

std::string split_line(Pool& pool, const Tablet& tablet) {
  const Split split = split_of(pool, tablet.object);
  if (split.plan.empty()) return "";
  const std::string stage = split.epoch.is_frozen ? "copied" : split.epoch.number == tablet.epoch ? "removed" : "switched";
  return "split " + split.object + " " + hexadecimal(split.end()) + " " + split.other() + " " + stage + "\n";
}

void split(const Where& where, const Bytes& end) {
  if (end.size() <= FENCE.size() || end.find(ROW_END) != end.size() - FENCE.size() || end.back() != FENCE.back()) {
    throw Failed("a tablet is split behind a row");
  }
  Pool pool(where);
  if (finish_all(pool).count(end) == 0) split_at(pool, end);
}

void split_largest(const Where& where) {
  Pool pool(where);
  finish_all(pool);
  std::optional<Tablet> largest;
  size_t most = 0;
  for (const Tablet& tablet : read_places(pool)) {
    const size_t count = count_of(pool, tablet);
    if (count <= most) continue;
    largest = tablet;
    most = count;
  }
  if (!largest) throw Failed("there are no keys");
  split_at(pool, middle_of(pool, *largest, most));
}

void Mender::wake() {
  {
    std::lock_guard<std::mutex> guard(lock_);
    is_awake_ = true;
  }
  wait_.notify_one();
}

void Mender::mend_for_ever() {
  for (;;) {
    {
      std::unique_lock<std::mutex> guard(lock_);
      wait_.wait(guard, [this] { return is_awake_; });
      is_awake_ = false;
    }
    try {
      for (const Tablet& tablet : read_places(pool_)) watch(tablet.object);
    } catch (const std::exception& why) {
      std::cerr << std::string("duqishom-bridge: a split is left: ") + why.what() + "\n" << std::flush;
      std::this_thread::sleep_for(PAUSE);
      wake();
    }
  }
}

// Finishes a tablet's split if nobody else goes on with it.
void Mender::watch(const std::string& object) {
  std::pair<uint64_t, uint64_t> before;
  for (;;) {
    const Split split = split_of(pool_, object);
    if (split.plan.empty()) return;
    const std::pair<uint64_t, uint64_t> now{pool_.version(object), pool_.version(split.other())};
    if (now == before) return finish(pool_, object);
    before = now;
    std::this_thread::sleep_for(PATIENCE);
  }
}

}  // namespace duqishom
