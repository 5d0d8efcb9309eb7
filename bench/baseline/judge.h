// Histories, and whether one is linearizable.
#ifndef JUDGE_H
#define JUDGE_H

#include <cstring>

#include "program.h"

// A number of operations for each thread, in four bits each. Numbers are at most 6, which leaves the top bits free.
using Counts = uint16_t;

inline Counts one_of(int thread) { return Counts(1 << 4 * thread); }

inline int count_of(Counts counts, int thread) { return counts >> 4 * thread & 15; }

// Whether each thread has at least as many in `more` as in `fewer`: the free bits, when set, get lost where it has not.
inline bool covers(Counts more, Counts fewer) { return (((more | 0x8888) - fewer) & 0x8888) == 0x8888; }

// The replies of threads. The operations of a thread begin in order, so that numbers say which began and finished.
struct History {
  Counts begun = 0, finished = 0;
  uint8_t replies[max_threads] = {};               // a bit for each finished operation
  Counts notes[max_threads][max_operations] = {};  // of each begun one, what was finished then

  bool is_pending(int thread) const { return count_of(begun, thread) > count_of(finished, thread); }

  void begin(int thread) {
    notes[thread][count_of(begun, thread)] = finished;
    begun += one_of(thread);
  }

  void finish(int thread, bool reply) {
    replies[thread] |= reply << count_of(finished, thread);
    finished += one_of(thread);
  }

  // Writes the history behind `out`, and returns its end; `read` does the reverse.
  uint8_t* write(int threads, uint8_t* out) const {
    std::memcpy(out, &begun, 2);
    std::memcpy(out + 2, &finished, 2);
    std::memcpy(out + 4, replies, threads);
    out += 4 + threads;
    for (int thread = 0; thread < threads; ++thread) {
      size_t size = count_of(begun, thread) * sizeof(Counts);
      std::memcpy(out, notes[thread], size);
      out += size;
    }
    return out;
  }

  const uint8_t* read(int threads, const uint8_t* in) {
    std::memcpy(&begun, in, 2);
    std::memcpy(&finished, in + 2, 2);
    std::memcpy(replies, in + 4, threads);
    in += 4 + threads;
    for (int thread = 0; thread < threads; ++thread) {
      size_t size = count_of(begun, thread) * sizeof(Counts);
      std::memcpy(notes[thread], in, size);
      in += size;
    }
    return in;
  }
};

// Searches for a linearization, one operation after the other.
class Judge {
 public:
  Judge(const Program& program, const History& history) : program(program), history(history) {}

  bool is_linearizable() const { return can_complete(0, keys_of(program.initial)); }

 private:
  const Program& program;
  const History& history;

  // Whether the listed operations, which left these keys, are the beginning of a linearization. Those of a thread end
  // one before the next begins, so that numbers say which are listed, and each thread has one that may be next.
  bool can_complete(Counts listed, Keys keys) const {
    if (covers(listed, history.finished)) return true;
    for (int thread = 0; thread < (int)program.threads.size(); ++thread) {
      int index = count_of(listed, thread);
      if (index == count_of(history.begun, thread) || !covers(listed, history.notes[thread][index])) continue;
      bool is_finished = index < count_of(history.finished, thread);
      Keys after = keys;
      bool reply = apply(program.threads[thread][index], after);
      if (is_finished && reply != (history.replies[thread] >> index & 1)) continue;
      // One that changes no keys: if it is finished it may as well come now as later, and if not it need not come.
      if (after == keys && is_finished) return can_complete(listed + one_of(thread), keys);
      if (after != keys && can_complete(listed + one_of(thread), after)) return true;
    }
    return false;
  }
};

#endif
