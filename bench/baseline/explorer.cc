// An unverified explorer of the machines `atomic`, `nm` and `nm-no-tag`, to measure treesched against: the same
// programs, words and counts.
//
// usage: explorer explore FILE --steps N [--states M] [--merge exact|names]
//
// It is written for speed in the plain way: one thread, one layer after the other, states as packed bytes in one arena
// with a hash table, and a judge that searches with sets as bit masks. It shares no code with treesched.
#include <fstream>
#include <iostream>
#include <sstream>
#include <string>

#include "atomic.h"
#include "judge.h"
#include "natmit.h"
#include "program.h"
#include "states.h"

namespace {

struct Limits {
  long steps = 0;
  long states = 200000;
  bool by_names = false;
};

std::string schedule_to(const States& states, States::Place place) {
  std::string schedule;
  for (; place != 0; place = states.header(place).parent)
    schedule.insert(0, std::to_string(states.header(place).thread) + (schedule.empty() ? "" : ","));
  return schedule;
}

template <class Machine>
const char* fault_of(const Program& program, const Machine& machine, const typename Machine::State& state) {
  if (!machine.keeps_order(state)) return "order";
  return Judge(program, state.history).is_linearizable() ? nullptr : "history";
}

template <class Machine>
int explore(const Program& program, const Machine& machine, Limits limits) {
  uint8_t bytes[States::max_size];
  // Exact states differ by their numbers of steps too.
  auto pack = [&](const typename Machine::State& state, uint16_t steps) {
    uint8_t* end = machine.pack(state, limits.by_names, bytes);
    if (limits.by_names) return size_t(end - bytes);
    std::memcpy(end, &steps, sizeof(steps));
    return size_t(end - bytes) + sizeof(steps);
  };
  States states;
  typename Machine::State state = machine.start(), next;
  states.add(bytes, pack(state, 0), 0, 0);
  const int threads = (int)program.threads.size();
  States::Place at = 0, layer_end = states.end();
  for (long depth = 0; depth < limits.steps && at != layer_end; ++depth) {
    const char* fault = nullptr;
    States::Place faulty = 0;
    for (; at != layer_end; at = states.after(at)) {
      const uint8_t* packed = states.bytes(at);
      machine.unpack(packed, packed + states.header(at).size - (limits.by_names ? 0 : sizeof(uint16_t)), state);
      for (int thread = 0; thread < threads; ++thread) {
        if (count_of(state.history.finished, thread) == (int)program.threads[thread].size()) continue;
        next = state;
        machine.step(next, thread);
        States::Place place = states.end();
        if (!states.add(bytes, pack(next, uint16_t(depth + 1)), at, thread)) continue;
        if ((long)states.count() > limits.states) {
          std::cout << "stopped at " << limits.states << " states\nholds to " << depth << " steps\n";
          return 2;
        }
        if (fault != nullptr) continue;
        fault = fault_of(program, machine, next);
        faulty = place;
      }
    }
    if (fault != nullptr) {
      std::cout << "fault " << fault << " after " << depth + 1 << " steps\nschedule " << schedule_to(states, faulty)
                << "\nstates " << states.count() << "\n";
      return 1;
    }
    layer_end = states.end();
  }
  if (limits.by_names && limits.steps > 0 && at == layer_end)
    std::cout << "holds for every schedule\n";
  else
    std::cout << "holds to " << limits.steps << " steps\n";
  std::cout << "states " << states.count() << "\n";
  return 0;
}

int refuse(const std::string& cause) {
  std::cerr << "explorer: " << cause << "\n";
  return 4;
}

}  // namespace

int main(int argc, char** argv) {
  if (argc < 3 || std::string(argv[1]) != "explore") return refuse("no words explore FILE");
  Limits limits;
  for (int i = 3; i + 1 < argc; i += 2) {
    std::string word = argv[i], value = argv[i + 1];
    if (word == "--steps")
      limits.steps = std::stol(value);
    else if (word == "--states")
      limits.states = std::stol(value);
    else if (word == "--merge" && (value == "exact" || value == "names"))
      limits.by_names = value == "names";
    else
      return refuse("unknown word " + word + " " + value);
  }
  std::ifstream file(argv[2]);
  if (!file) return refuse(std::string("can't read ") + argv[2]);
  std::stringstream text;
  text << file.rdbuf();
  if (text.str().find("\"after\"") != std::string::npos) return refuse("no operation may wait");
  Program program = parse(text.str());
  if (program.tree == "atomic") return explore(program, Atomic(program), limits);
  if (program.tree == "nm") return explore(program, NatMit(program, true), limits);
  if (program.tree == "nm-no-tag") return explore(program, NatMit(program, false), limits);
  return refuse("only the machines atomic, nm and nm-no-tag");
}
