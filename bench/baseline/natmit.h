// The machine `nm`, the tree of Natarajan and Mittal (PPoPP 2014), and its variant `nm-no-tag`, as in docs/MACHINES.md.
#ifndef NATMIT_H
#define NATMIT_H

#include <optional>

#include "judge.h"

class NatMit {
 public:
  using Number = uint8_t;  // of a node: a program has at most 53
  using Word = uint8_t;    // a child: its number, flag and tag
  static constexpr Word number_bits = 63, flag = 64, tag = 128;
  static constexpr Number none = 63;
  enum Side { left, right };

  struct Node {
    uint8_t key;
    bool is_internal;
    Word child[2];
  };

  enum Where : uint8_t { begin, down, put, flag_leaf, look, clean_read, tag_sibling, read_sibling, swing };
  enum Local { ancestor, successor, parent, leaf, owner };  // `swing` has its sibling as `leaf`

  struct Place {
    Where where;
    uint8_t bit;  // the tag of `down`, the side of `tag_sibling` and `read_sibling`, the flag of `swing`
    Number local[5];

    Number operator[](Local which) const { return local[which]; }
  };

  struct State {
    History history;
    Place places[max_threads];  // of those in an operation
    int count;
    Node nodes[64];
  };

  NatMit(const Program& program, bool has_tag) : program(program), has_tag(has_tag) {}

  State start() const {
    State state = {};
    state.count = 5;
    state.nodes[0] = {102, true, {1, 2}};
    state.nodes[1] = {101, true, {3, 4}};
    state.nodes[2] = {102, false, {}};
    state.nodes[3] = {100, false, {}};
    state.nodes[4] = {101, false, {}};
    for (uint8_t key : program.initial) {
      Number above = 0, at = 1;
      while (state.nodes[at].is_internal) above = at, at = state.nodes[at].child[side_of(state, at, key)] & number_bits;
      put_in(state, above, at, key);
    }
    return state;
  }

  // Ancestors and parents are internal nodes, as they come from words on the way of a search: no thread goes astray.
  void step(State& state, int thread) const {
    Place& place = state.places[thread];
    if (!state.history.is_pending(thread)) {
      state.history.begin(thread);
      place = {begin, 0, {0, 0, 0, 0, none}};
    }
    Reply reply = act(state, place, program.threads[thread][count_of(state.history.finished, thread)]);
    if (reply) state.history.finish(thread, *reply);
  }

  bool keeps_order(const State& state) const { return keeps_order(state, 0, 0, 103, state.count); }

  // By names a walk from nodes 0 and 1 and from the places numbers the nodes in the order in which it meets them, and
  // what it does not meet is left out. Else all have been met before it, in their order.
  uint8_t* pack(const State& state, bool by_names, uint8_t* out) const {
    Number number[64], met[64];
    int count = by_names ? 2 : state.count;
    std::memset(number, none, sizeof(number));
    for (int i = 0; i < count; ++i) number[i] = met[i] = Number(i);
    auto renamed = [&](Word word) {
      Number at = word & number_bits;
      if (number[at] == none && at != none) number[at] = Number(count), met[count++] = at;
      return Word(number[at] | (word & ~number_bits));
    };
    int threads = (int)program.threads.size();
    out = state.history.write(threads, out);
    for (int thread = 0; thread < threads; ++thread) {
      if (!state.history.is_pending(thread)) continue;
      const Place& place = state.places[thread];
      *out++ = place.where | place.bit << 4;
      for (int i = 0; i < 5; ++i)
        if (holds(place.where, i)) *out++ = renamed(place.local[i]);
    }
    for (int i = 0; i < count; ++i) {
      const Node& node = state.nodes[met[i]];
      *out++ = node.key | node.is_internal << 7;
      if (node.is_internal) *out++ = renamed(node.child[left]), *out++ = renamed(node.child[right]);
    }
    return out;
  }

  void unpack(const uint8_t* in, const uint8_t* end, State& state) const {
    int threads = (int)program.threads.size();
    in = state.history.read(threads, in);
    for (int thread = 0; thread < threads; ++thread) {
      if (!state.history.is_pending(thread)) continue;
      Place& place = state.places[thread];
      place.where = Where(*in & 15);
      place.bit = *in++ >> 4;
      for (int i = 0; i < 5; ++i) place.local[i] = holds(place.where, i) ? *in++ : none;
    }
    for (state.count = 0; in < end; ++state.count) {
      Node& node = state.nodes[state.count];
      node.key = *in & 127;
      node.is_internal = *in++ >> 7;
      if (node.is_internal) node.child[left] = *in++, node.child[right] = *in++;
    }
  }

 private:
  const Program& program;
  bool has_tag;

  // Whether a place has this local. One that it does not have distinguishes no two states.
  static bool holds(Where where, int local) {
    static constexpr uint8_t held[] = {0b10000, 0b11111, 0b01111, 0b01111, 0b01111, 0b10111, 0b10111, 0b10111, 0b11011};
    return held[where] >> local & 1;
  }

  static Side side_of(const State& state, Number at, uint8_t key) { return key < state.nodes[at].key ? left : right; }

  static Word& word_of(State& state, Number at, Operation operation) {
    return state.nodes[at].child[side_of(state, at, operation.key)];
  }

  using Reply = std::optional<bool>;  // none where the operation goes on

  // One access: the row of the place.
  Reply act(State& state, Place& place, Operation operation) const {
    switch (place.where) {
      case begin:
        return arrive(state, place, operation, {0, 1, 1}, state.nodes[1].child[left]);
      case down: {
        Number at = place[leaf];
        Word word = word_of(state, at, operation);
        if (place.bit) return arrive(state, place, operation, {place[ancestor], place[successor], at}, word);
        return arrive(state, place, operation, {place[parent], at, at}, word);
      }
      case put:
        if (word_of(state, place[parent], operation) != place[leaf]) return go(place, look);
        put_in(state, place[parent], place[leaf], operation.key);
        return true;
      case flag_leaf: {
        Word& word = word_of(state, place[parent], operation);
        if (word != place[leaf]) return go(place, look);
        word |= flag;
        place.local[owner] = place[leaf];
        return go(place, clean_read);
      }
      case look: {
        Word word = word_of(state, place[parent], operation);
        place.local[owner] = none;
        return go(place, (word & number_bits) == place[leaf] && word != place[leaf] ? clean_read : begin);
      }
      case clean_read: {
        bool is_flagged = word_of(state, place[parent], operation) & flag;
        Side side = side_of(state, place[parent], operation.key);
        return go(place, has_tag ? tag_sibling : read_sibling, side ^ is_flagged);
      }
      case tag_sibling:
        state.nodes[place[parent]].child[place.bit] |= tag;
        return go(place, read_sibling, place.bit);
      case read_sibling: {
        Word word = state.nodes[place[parent]].child[place.bit];
        place.local[leaf] = word & number_bits;
        return go(place, swing, (word & flag) != 0);
      }
      case swing: {
        Word& word = word_of(state, place[ancestor], operation);
        if (word != place[successor]) return go(place, begin);
        word = place[leaf] | (place.bit ? flag : 0);
        if (place[owner] != none) return true;
        return go(place, begin);
      }
    }
    return std::nullopt;
  }

  static Reply go(Place& place, Where where, uint8_t bit = 0) {
    place.where = where;
    place.bit = bit;
    return std::nullopt;
  }

  struct Way {
    Number ancestor, successor, parent;
  };

  // A search has read the word that leads on. Returns the reply if it ends the operation.
  static Reply arrive(const State& state, Place& place, Operation operation, Way way, Word word) {
    Number at = word & number_bits, owned = place[owner];
    place = {down, (word & tag) != 0, {way.ancestor, way.successor, way.parent, at, owned}};
    if (state.nodes[at].is_internal) return std::nullopt;
    bool is_found = state.nodes[at].key == operation.key;
    if (operation.kind == Kind::find) return is_found;
    if (owned != none && at != owned) return true;  // others have cut off the leaf that this delete flagged
    if (owned == none && is_found == (operation.kind == Kind::insert)) return false;
    return go(place, operation.kind == Kind::insert ? put : owned == none ? flag_leaf : clean_read);
  }

  // Puts a new internal node over the leaf and a new leaf of the key in the place of the leaf.
  static void put_in(State& state, Number above, Number leaf, uint8_t key) {
    uint8_t other = state.nodes[leaf].key;
    Number new_leaf = Number(state.count++), internal = Number(state.count++);
    state.nodes[new_leaf] = {key, false, {}};
    state.nodes[internal] = key < other ? Node{other, true, {new_leaf, leaf}} : Node{key, true, {leaf, new_leaf}};
    state.nodes[above].child[side_of(state, above, key)] = internal;
  }

  // A way of more levels than there are nodes goes round in a circle.
  static bool keeps_order(const State& state, Number at, int low, int high, int levels) {
    const Node& node = state.nodes[at];
    if (levels == 0) return false;
    if (!node.is_internal) return low <= node.key && node.key < high;
    return keeps_order(state, node.child[left] & number_bits, low, std::min<int>(node.key, high), levels - 1) &&
           keeps_order(state, node.child[right] & number_bits, std::max<int>(node.key, low), high, levels - 1);
  }
};

#endif
