// The five messages as operations of RADOS. Each change is one operation on one object.
#include "engine.h"

#include <algorithm>
#include <cerrno>
#include <chrono>
#include <cstdio>
#include <cstring>

namespace duqishom {

using librados::bufferlist;
using librados::ObjectReadOperation;
using librados::ObjectWriteOperation;

const std::string PLACES = "places", STAMPS = "stamps", FLOORS = "floors", EPOCH = "e", LAST = "l", SPLIT = "s";

namespace {

// How often something is read again because others changed it meanwhile, and the pause if it is a split.
constexpr int TRIES = 1000;
constexpr std::chrono::milliseconds PAUSE{50};

// The stamps of one write, and the versions above which they would reach 2^63.
constexpr uint64_t OF_A_WRITE = 4096, MOST_VERSION = (uint64_t{1} << 51) - 1;

// What is answered where an operation wasn't done.
[[noreturn]] void fail(const std::string& what, int error) {
  if (error == -ESHUTDOWN) throw Fenced("this bridge was shut out");
  throw Failed(what + ": " + std::strerror(-error));
}

}  // namespace

bufferlist list_of(const Bytes& bytes) {
  bufferlist list;
  list.append(bytes);
  return list;
}

Bytes bytes_of(const bufferlist& list) { return list.to_str(); }

std::string key(char kind, const Bytes& rest) { return std::string(1, kind) + rest; }

void check(const std::string& what, int done) {
  if (done < 0) fail(what, done);
}

Bytes entry(const Omap& entries, const std::string& key) {
  const auto found = entries.find(key);
  return found == entries.end() ? Bytes() : bytes_of(found->second);
}

std::pair<bufferlist, int> is(const Bytes& value) { return {list_of(value), LIBRADOS_CMPXATTR_OP_EQ}; }

Bytes eight(uint64_t number) {
  Bytes bytes(8, '\0');
  for (int at = 7; at >= 0; --at, number >>= 8) bytes[at] = static_cast<char>(number);
  return bytes;
}

uint64_t eight_of(const Bytes& bytes) {
  if (!bytes.empty() && bytes.size() != 8) throw Failed("a number in the pool hasn't eight bytes");
  uint64_t number = 0;
  for (unsigned char byte : bytes) number = number << 8 | byte;
  return number;
}

Bytes digits(uint64_t number) {
  char text[17];
  std::snprintf(text, sizeof text, "%016llx", static_cast<unsigned long long>(number));
  return text;
}

uint64_t digits_of(const Bytes& text) {
  if (text.empty()) return 0;
  if (text.size() != 16 || text.find_first_not_of("0123456789abcdef") != Bytes::npos) {
    throw Failed("a number in the pool hasn't sixteen digits");
  }
  return std::stoull(text, nullptr, 16);
}

Epoch epoch_of(const Omap& entries) {
  const Bytes value = entry(entries, EPOCH);
  return {eight_of(value.substr(0, 8)), value.size() > 8};
}

// The places in the entries of their object.
static Places places_of(const Omap& entries) {
  Places places;
  for (const auto& [name, list] : entries) {
    const Bytes value = bytes_of(list);
    if (value.size() < 9) throw Failed("a place is out of form");
    const auto end = name == LAST ? std::nullopt : std::optional<Bytes>(name.substr(1));
    places.push_back({end, value.substr(8), eight_of(value.substr(0, 8))});
  }
  if (places.empty() || places.back().end) throw Failed("there is no last tablet");
  return places;
}

Places read_places(Pool& pool) {
  for (int tries = 0; tries < TRIES; ++tries) {
    std::set<uint64_t> versions;
    const Omap entries = pool.entries(PLACES, "", &versions);
    if (versions.size() == 1) return places_of(entries);
  }
  throw Failed("the places change too often to be read");
}

size_t place_of(const Places& places, const Bytes& text) {
  size_t low = 0, high = places.size() - 1;
  while (low < high) {
    const size_t middle = (low + high) / 2;
    if (text < *places[middle].end) {
      high = middle;
    } else {
      low = middle + 1;
    }
  }
  return low;
}

Pool::Pool(const Where& where) {
  check("the user " + where.user, rados_.init(where.user.c_str()));
  check(where.conf, rados_.conf_read_file(where.conf.c_str()));
  // A client of the cluster that leaves no files
  for (const char* option : {"log_file", "admin_socket", "pid_file"}) rados_.conf_set(option, "");
  check("no connection to the cluster of " + where.conf, rados_.connect());
  check("the pool " + where.pool, rados_.ioctx_create(where.pool.c_str(), io_));
  io_.set_namespace("duqishom");
}

Pool::~Pool() {
  io_.close();
  rados_.shutdown();
}

int Pool::read(const std::string& object, ObjectReadOperation& operation, uint64_t* version) {
  librados::AioCompletion* completion = librados::Rados::aio_create_completion();
  int done = io_.aio_operate(object, completion, &operation, nullptr);
  if (done == 0) {
    completion->wait_for_complete();
    done = completion->get_return_value();
    if (version) *version = completion->get_version64();
  }
  completion->release();
  return done;
}

int Pool::write(const std::string& object, ObjectWriteOperation& operation, uint64_t* version) {
  librados::AioCompletion* completion = librados::Rados::aio_create_completion();
  int done = io_.aio_operate(object, completion, &operation);
  if (done == 0) {
    completion->wait_for_complete();
    done = completion->get_return_value();
    if (version) *version = completion->get_version64();
  }
  completion->release();
  return done;
}

Omap Pool::entries(const std::string& object, const std::string& prefix, std::set<uint64_t>* versions) {
  Omap all;
  bool more = true;
  std::string after;
  while (more) {
    Omap found;
    ObjectReadOperation operation;
    operation.omap_get_vals2(after, prefix, 1024, &found, &more, nullptr);
    uint64_t version = 0;
    const int done = read(object, operation, &version);
    if (versions) versions->insert(version);
    if (done == -ENOENT && object == PLACES) throw Failed("the pool has no store: make one with cluster init");
    check(object, done);
    if (found.empty()) break;
    after = found.rbegin()->first;
    all.merge(found);
  }
  return all;
}

uint64_t Pool::version(const std::string& object) {
  uint64_t version = 0, size = 0;
  ObjectReadOperation operation;
  operation.stat2(&size, nullptr, nullptr);
  const int done = read(object, operation, &version);
  if (done == -ENOENT) return 0;
  check(object, done);
  return version;
}

bool Pool::put_if(const std::string& object, const std::string& key, const Bytes& was, const Bytes& value) {
  ObjectWriteOperation operation;
  operation.omap_cmp({{key, is(was)}}, nullptr);
  operation.omap_set({{key, list_of(value)}});
  const int done = write(object, operation);
  if (done != -ECANCELED) check(object, done);
  return done == 0;
}

size_t Pool::remove_machine(const std::string& machine) {
  const std::string servers = key(FLOOR, machine + "/");
  std::set<std::string> gone{key(ADDRESS, machine)};
  for (const auto& each : entries(FLOORS, servers)) {
    // A name with one more stroke is of another machine
    if (each.first.find('/', servers.size()) == std::string::npos) gone.insert(each.first);
  }
  ObjectWriteOperation operation;
  operation.omap_rm_keys(gone);
  check(FLOORS, write(FLOORS, operation));
  return gone.size() - 1;
}

void Pool::shut_out(const std::string& address) {
  const int done = rados_.blocklist_add(address, 0);
  if (done < 0) fail("the bridge at " + address + " can't be shut out (the user needs mon 'profile rbd')", done);
  check("the cluster's map", rados_.wait_for_latest_osdmap());
}

Engine::Engine(const Where& where, const std::string& machine) : pool_(where), machine_(machine) {
  places();
  take_place();
  open_stamps();
  std::thread([this] { draw_for_ever(); }).detach();
  std::thread([this] { mender_.mend_for_ever(); }).detach();
}

// Machines.

void Engine::take_place() {
  const std::string name = key(ADDRESS, machine_), own = pool_.address();
  Bytes last;
  do {
    last = entry(pool_.entries(FLOORS, name), name);
    if (!last.empty() && last != own) pool_.shut_out(last);
  } while (!pool_.put_if(FLOORS, name, last, own));
}

void Engine::admit(const Bytes& server) { pool_.put_if(FLOORS, key(FLOOR, machine_ + "/" + server), "", digits(0)); }

Floor Engine::publish(const Bytes& server, uint64_t floor) {
  ++counts.publishes;
  Floor told{floor};
  const std::string name = key(FLOOR, machine_ + "/" + server);
  ObjectWriteOperation operation;
  operation.omap_cmp({{name, {list_of(digits(floor)), LIBRADOS_CMPXATTR_OP_LT}}}, nullptr);
  operation.omap_set({{name, list_of(digits(floor))}});
  uint64_t version = 0;
  const int done = pool_.write(FLOORS, operation, &version);
  // A higher one stays, as of an earlier server of this name
  if (done != -ECANCELED) check(FLOORS, done);
  if (done == 0) told.made = version;
  std::set<uint64_t> versions;
  for (const auto& each : pool_.entries(FLOORS, std::string(1, FLOOR), &versions)) {
    told.least = std::min(told.least, digits_of(bytes_of(each.second)));
  }
  told.seen = *versions.rbegin();
  return told;
}

void Engine::leave() { pool_.remove_machine(machine_); }

// Rows.

std::shared_ptr<const Places> Engine::places() {
  std::lock_guard<std::mutex> guard(places_lock_);
  if (!places_) {
    places_ = std::make_shared<const Places>(read_places(pool_));
    // A split that is over may have left something
    mender_.wake();
  }
  return places_;
}

// Whether a tablet's entries were read as the places have it. If not, they are read again.
bool Engine::is_at(const Tablet& tablet, const Omap& told) {
  const Epoch epoch = epoch_of(told);
  if (epoch.is_frozen) mender_.wake();
  if (epoch.number == tablet.epoch) return true;
  look_again(tablet);
  return false;
}

// A tablet isn't as the places have it, or it is frozen. They are read again, after a pause if they have it as before.
void Engine::look_again(const Tablet& tablet) {
  {
    std::lock_guard<std::mutex> guard(places_lock_);
    places_.reset();
  }
  const auto all = places();
  const auto is_as_before = [&](const Tablet& each) { return each.object == tablet.object && each.epoch == tablet.epoch; };
  if (std::any_of(all->begin(), all->end(), is_as_before)) std::this_thread::sleep_for(PAUSE);
}

Engine::Marks Engine::marks(const Tablet& tablet, const Bytes& prefix) {
  const std::string name = key(GUARD, prefix);
  Omap found;
  ObjectReadOperation operation;
  operation.omap_get_vals_by_keys({EPOCH, name}, &found, nullptr);
  check(tablet.object, pool_.read(tablet.object, operation));
  return {epoch_of(found), eight_of(entry(found, name))};
}

Row Engine::fetch(const Bytes& prefix) {
  ++counts.fetches;
  for (int tries = 0; tries < TRIES; ++tries) {
    if (auto row = fetch_once(prefix)) return *row;
  }
  throw Failed("a row changes too often to be read");
}

// A row of one moment: none if it has changed between two operations, or is elsewhere now.
std::optional<Row> Engine::fetch_once(const Bytes& prefix) {
  const auto all = places();
  const Tablet& tablet = (*all)[place_of(*all, prefix)];
  const std::string cells = key(KEY, prefix), guard = key(GUARD, prefix);
  Row row;
  row.at.object = tablet.object;
  std::string after;
  bool more = true;
  while (more) {
    Omap found, told;
    ObjectReadOperation operation;
    operation.omap_get_vals2(after, cells, UINT64_MAX, &found, &more, nullptr);
    operation.omap_get_vals_by_keys({EPOCH, guard}, &told, nullptr);
    check(tablet.object, pool_.read(tablet.object, operation, &row.at.version));
    if (!is_at(tablet, told)) return std::nullopt;
    const uint64_t now = eight_of(entry(told, guard));
    if (!after.empty() && now != row.guard) return std::nullopt;
    row.guard = now;
    for (const auto& [name, value] : found) row.cells.emplace_back(name.substr(1), bytes_of(value));
    if (found.empty()) break;
    after = found.rbegin()->first;
  }
  return row;
}

std::optional<Place> Engine::swap(const Bytes& prefix, uint64_t guard, const std::vector<Edit>& edits) {
  ++counts.swaps;
  std::optional<Place> done;
  for (int tries = 0; tries < TRIES; ++tries) {
    if (swap_once(prefix, guard, edits, done)) {
      counts.raced += !done;
      return done;
    }
  }
  throw Failed("a tablet changes its place too often, or its split has no end");
}

// False if the row is elsewhere now, or its tablet is frozen. Where the edits were done is told, if they were.
bool Engine::swap_once(const Bytes& prefix, uint64_t guard, const std::vector<Edit>& edits, std::optional<Place>& place) {
  const auto all = places();
  const Tablet& tablet = (*all)[place_of(*all, prefix)];
  const std::string name = key(GUARD, prefix);
  Omap set;
  std::set<std::string> erased;
  for (const Edit& edit : edits) {
    const std::string text = key(KEY, edit.text);
    if (edit.value) {
      erased.erase(text);
      set[text] = list_of(*edit.value);
    } else {
      set.erase(text);
      erased.insert(text);
    }
  }
  set[name] = list_of(eight(guard + 1));
  ObjectWriteOperation operation;
  // A guard that isn't there compares as the empty text. A tablet always has an epoch
  const Bytes was = guard == 0 ? Bytes() : eight(guard);
  operation.omap_cmp({{EPOCH, is(eight(tablet.epoch))}, {name, is(was)}}, nullptr);
  operation.omap_set(set);
  if (!erased.empty()) operation.omap_rm_keys(erased);
  uint64_t version = 0;
  const int done = pool_.write(tablet.object, operation, &version);
  if (done == 0) {
    place = Place{tablet.object, version};
    return true;
  }
  Marks now{};
  try {
    now = marks(tablet, prefix);
  } catch (const Failed& why) {
    if (done == -ECANCELED || done == -ENOENT) throw;
    throw Unknown(why.what());
  }
  if (done == -ECANCELED) {
    if (now.epoch.number == tablet.epoch && !now.epoch.is_frozen) return true;
    look_again(tablet);
    return false;
  }
  if (now.epoch.number != tablet.epoch || now.guard != guard) throw Unknown(std::strerror(-done));
  fail(tablet.object, done);
}

Page Engine::page(const Bytes& from, uint32_t most) {
  ++counts.pages;
  for (int tries = 0; tries < TRIES; ++tries) {
    // One more tells whether a key is left
    if (auto page = page_once(from, size_t{most} + 1)) {
      page->is_last = page->cells.size() <= most;
      if (!page->is_last) page->cells.pop_back();
      return *page;
    }
    ++counts.pages_again;
  }
  throw Failed("the tablets of a page change too often to be read");
}

// The first keys of one moment: none if a tablet has changed while others were read, or is elsewhere now.
std::optional<Page> Engine::page_once(const Bytes& from, size_t most) {
  const auto all = places();
  Page page;
  for (size_t at = place_of(*all, from); at < all->size() && page.cells.size() < most; ++at) {
    const Tablet& tablet = (*all)[at];
    std::string after = key(KEY, from);
    bool more = true, begins = true;
    while (more && page.cells.size() < most) {
      Omap found, told;
      ObjectReadOperation operation;
      operation.omap_get_vals2(after, std::string(1, KEY), most - page.cells.size(), &found, &more, nullptr);
      std::set<std::string> single{EPOCH};
      // The keys above come strictly after this one
      if (begins) single.insert(after);
      operation.omap_get_vals_by_keys(single, &told, nullptr);
      uint64_t version = 0;
      check(tablet.object, pool_.read(tablet.object, operation, &version));
      if (!is_at(tablet, told)) return std::nullopt;
      if (begins) {
        page.at.push_back({tablet.object, version});
      } else if (page.at.back().version != version) {
        return std::nullopt;
      }
      told.erase(EPOCH);
      begins = false;
      // Behind its end a tablet may still have keys that have moved
      const auto moved = tablet.end ? found.lower_bound(key(KEY, *tablet.end)) : found.end();
      more = more && moved == found.end();
      found.erase(moved, found.end());
      for (const Omap* part : {&told, &found}) {
        for (const auto& [name, value] : *part) page.cells.emplace_back(name.substr(1), bytes_of(value));
      }
      if (found.empty()) break;
      after = found.rbegin()->first;
    }
  }
  if (page.cells.size() > most) page.cells.resize(most);
  for (size_t at = 0; at + 1 < page.at.size(); ++at) {
    if (pool_.version(page.at[at].object) != page.at[at].version) return std::nullopt;
  }
  return page;
}

// Stamps.

void Engine::open_stamps() {
  const Omap marks = pool_.entries(STAMPS, std::string(1, MARK));
  uint64_t greatest = 0;
  for (const auto& each : marks) greatest = std::max(greatest, digits_of(bytes_of(each.second)));
  last_version_ = digits_of(entry(marks, key(MARK, machine_)));
  // Of each machine one write may have a version above its mark
  const uint64_t above = greatest + marks.size();
  for (uint64_t version = 0; version <= above;) {
    version = write_stamp();
    if (version <= greatest) {
      throw Failed("stamps would not rise: the object of the stamps has version " + std::to_string(version) +
                   ", and a version above " + std::to_string(greatest) + " was used already");
    }
  }
}

// A write of the stamps' object: its version, which rises with each.
uint64_t Engine::write_stamp() {
  ObjectWriteOperation operation;
  operation.omap_set({{key(MARK, machine_), list_of(digits(last_version_))}});
  uint64_t version = 0;
  check(STAMPS, pool_.write(STAMPS, operation, &version));
  if (version <= last_version_ || version > MOST_VERSION) throw Failed("the versions of the stamps don't rise");
  last_version_ = version;
  ++counts.stamp_writes;
  return version;
}

uint64_t Engine::draw() {
  ++counts.draws;
  std::promise<uint64_t> promise;
  auto stamp = promise.get_future();
  {
    std::lock_guard<std::mutex> guard(draws_lock_);
    draws_.push_back(std::move(promise));
  }
  draws_wait_.notify_one();
  return stamp.get();
}

// Each write serves the draws that have come before it begins.
void Engine::draw_for_ever() {
  for (;;) {
    std::vector<std::promise<uint64_t>> served;
    {
      std::unique_lock<std::mutex> guard(draws_lock_);
      draws_wait_.wait(guard, [this] { return !draws_.empty(); });
      const auto end = draws_.begin() + std::min<size_t>(draws_.size(), OF_A_WRITE);
      served.assign(std::make_move_iterator(draws_.begin()), std::make_move_iterator(end));
      draws_.erase(draws_.begin(), end);
    }
    try {
      const uint64_t base = write_stamp() * OF_A_WRITE;
      for (size_t at = 0; at < served.size(); ++at) served[at].set_value(base + at);
    } catch (...) {
      for (auto& promise : served) promise.set_exception(std::current_exception());
    }
  }
}

}  // namespace duqishom
