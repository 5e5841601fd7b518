// What an operator does to a pool: makes a store in it, looks at it, and forgets a machine that is gone.
#include <cerrno>
#include <iostream>

#include "engine.h"

namespace duqishom {

Bytes hexadecimal(const Bytes& bytes) {
  static const char DIGITS[] = "0123456789abcdef";
  Bytes text;
  for (unsigned char byte : bytes) {
    text += DIGITS[byte >> 4];
    text += DIGITS[byte & 15];
  }
  return text;
}

namespace {

// Makes an object, if it isn't there.
void make(Pool& pool, const std::string& object, const Omap& entries) {
  librados::ObjectWriteOperation operation;
  operation.create(false);
  if (!entries.empty()) operation.omap_set(entries);
  check(object, pool.write(object, operation));
}

}  // namespace

void initialize(const Where& where, const std::vector<Bytes>& ends) {
  Pool pool(where);
  Omap places;
  std::vector<std::string> objects;
  for (size_t at = 0; at <= ends.size(); ++at) {
    const std::string object = "tablet." + std::to_string(at + 1);
    if (at > 0 && at < ends.size() && ends[at - 1] >= ends[at]) throw Failed("the ends aren't in order");
    places[at < ends.size() ? key(END, ends[at]) : LAST] = list_of(eight(1) + object);
    objects.push_back(object);
  }
  // The places are made last, so that a store that isn't whole can be made again
  librados::ObjectReadOperation looks;
  looks.stat2(nullptr, nullptr, nullptr);
  if (pool.read(PLACES, looks) != -ENOENT) throw Failed("the pool has a store already");
  for (const std::string& object : objects) {
    make(pool, object, {{EPOCH, list_of(eight(1))}});
    if (pool.entries(object, "").size() != 1) throw Failed(object + " has rows, and there are no places");
  }
  make(pool, STAMPS, {});
  make(pool, FLOORS, {});
  librados::ObjectWriteOperation operation;
  operation.create(true);
  operation.omap_set(places);
  check(PLACES, pool.write(PLACES, operation));
  std::cout << "a store of " << objects.size() << " tablets is in the pool " << where.pool << "\n";
}

// As lines: tablet END OBJECT EPOCH VERSION, split OBJECT END OTHER STAGE, stamps VERSION, bridge MACHINE ADDRESS, floor
// SERVER FLOOR. The ends are in hexadecimal digits, or - for the last tablet.
void tell_status(const Where& where) {
  Pool pool(where);
  for (const Tablet& tablet : read_places(pool)) {
    std::cout << "tablet " << (tablet.end ? hexadecimal(*tablet.end) : "-") << " " << tablet.object << " " << tablet.epoch << " "
              << pool.version(tablet.object) << "\n"
              << split_line(pool, tablet);
  }
  std::cout << "stamps " << pool.version(STAMPS) << "\n";
  for (const auto& [name, value] : pool.entries(FLOORS, std::string(1, ADDRESS))) {
    std::cout << "bridge " << name.substr(1) << " " << bytes_of(value) << "\n";
  }
  for (const auto& [name, value] : pool.entries(FLOORS, std::string(1, FLOOR))) {
    std::cout << "floor " << name.substr(1) << " " << digits_of(bytes_of(value)) << "\n";
  }
}

void forget(const Where& where, const std::string& machine) {
  Pool pool(where);
  const std::string name = key(ADDRESS, machine);
  const Omap bridges = pool.entries(FLOORS, name);
  const auto bridge = bridges.find(name);
  if (bridge != bridges.end()) pool.shut_out(bytes_of(bridge->second));
  const size_t count = pool.remove_machine(machine);
  std::cout << machine << " is shut out, and its " << count << " servers have no floors\n";
}

}  // namespace duqishom
