// The machine `atomic`: a set of keys, on which an operation is one step.
#ifndef ATOMIC_H
#define ATOMIC_H

#include "judge.h"

class Atomic {
 public:
  struct State {
    History history;
    Keys keys = 0;
  };

  explicit Atomic(const Program& program) : program(program) {}

  State start() const { return {History(), keys_of(program.initial)}; }

  void step(State& state, int thread) const {
    state.history.begin(thread);
    bool reply = apply(program.threads[thread][count_of(state.history.finished, thread)], state.keys);
    state.history.finish(thread, reply);
  }

  bool keeps_order(const State&) const { return true; }

  // There are no numbers of nodes, and both merges have the same states.
  uint8_t* pack(const State& state, bool, uint8_t* out) const {
    out = state.history.write((int)program.threads.size(), out);
    std::memcpy(out, &state.keys, sizeof(Keys));
    return out + sizeof(Keys);
  }

  void unpack(const uint8_t* in, const uint8_t*, State& state) const {
    in = state.history.read((int)program.threads.size(), in);
    std::memcpy(&state.keys, in, sizeof(Keys));
  }

 private:
  const Program& program;
};

#endif
