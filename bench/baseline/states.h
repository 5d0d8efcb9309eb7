// The states that are known, packed one behind the other.
#ifndef STATES_H
#define STATES_H

#include <cstdint>
#include <cstdlib>
#include <cstring>
#include <new>
#include <vector>

// Each state is a record in one arena, in the order in which it was met: the states of a layer stand side by side, and
// no queue is kept beside them. A hash table finds the records; its slots hold the hash, and growing reads no record.
class States {
 public:
  using Place = uint32_t;  // where a record begins in the arena

  struct Header {
    Place parent;  // the state whose step led here
    uint8_t thread;
    uint8_t size;  // of the packed state, which follows
  };

  static constexpr size_t max_size = 255;

  States() : slots(1 << 10) {}
  States(const States&) = delete;
  States& operator=(const States&) = delete;
  ~States() { std::free(arena); }

  // Keeps a state unless it is known. Returns whether it was new.
  bool add(const uint8_t* bytes, size_t size, Place parent, int thread) {
    if (number * 4 >= slots.size() * 3) grow_slots();
    uint32_t hash = hash_of(bytes, size);
    size_t mask = slots.size() - 1, at = hash & mask;
    for (; slots[at].place_after != 0; at = (at + 1) & mask)
      if (slots[at].hash == hash && is_at(slots[at].place_after - 1, bytes, size)) return false;
    Header header{parent, uint8_t(thread), uint8_t(size)};
    make_room(header_size + size);
    slots[at] = {hash, used + 1};
    std::memcpy(arena + used, &header, header_size);
    std::memcpy(arena + used + header_size, bytes, size);
    used += Place(header_size + size);
    ++number;
    return true;
  }

  size_t count() const { return number; }
  Place end() const { return used; }

  Header header(Place place) const {
    Header header;
    std::memcpy(&header, arena + place, header_size);
    return header;
  }

  const uint8_t* bytes(Place place) const { return arena + place + header_size; }
  Place after(Place place) const { return place + Place(header_size) + header(place).size; }

 private:
  struct Slot {
    uint32_t hash;
    Place place_after;  // one more than the place, and 0 in an empty slot
  };

  static constexpr size_t header_size = 6;  // without the padding of the struct

  uint8_t* arena = nullptr;
  size_t room = 0;
  Place used = 0;
  size_t number = 0;
  std::vector<Slot> slots;  // a power of two

  static uint32_t hash_of(const uint8_t* bytes, size_t size) {
    uint64_t hash = size, word;
    for (; size >= 8; bytes += 8, size -= 8) {
      std::memcpy(&word, bytes, 8);
      hash = mixed(hash ^ word);
    }
    word = 0;
    std::memcpy(&word, bytes, size);
    hash = mixed(hash ^ word);
    return uint32_t(hash);
  }

  static uint64_t mixed(uint64_t hash) {
    hash *= 0x9E3779B97F4A7C15ull;
    return hash ^ hash >> 32;
  }

  bool is_at(Place place, const uint8_t* bytes, size_t size) const {
    return header(place).size == size && std::memcmp(this->bytes(place), bytes, size) == 0;
  }

  void grow_slots() {
    std::vector<Slot> old(slots.size() * 2);
    old.swap(slots);
    size_t mask = slots.size() - 1;
    for (const Slot& slot : old) {
      if (slot.place_after == 0) continue;
      size_t at = slot.hash & mask;
      while (slots[at].place_after != 0) at = (at + 1) & mask;
      slots[at] = slot;
    }
  }

  // Places are 32 bits wide. A page of the arena takes no memory before it is written.
  void make_room(size_t more) {
    if (used + more <= room) return;
    size_t wanted = room == 0 ? size_t(1) << 16 : room * 2;
    void* moved = used + more > UINT32_MAX ? nullptr : std::realloc(arena, wanted);
    if (moved == nullptr) throw std::bad_alloc();
    arena = static_cast<uint8_t*>(moved);
    room = wanted;
  }
};

#endif
