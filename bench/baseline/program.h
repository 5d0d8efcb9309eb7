// Programs: what the threads do, and the keys that are there at the start.
#ifndef PROGRAM_H
#define PROGRAM_H

#include <algorithm>
#include <cstdint>
#include <sstream>
#include <string>
#include <vector>

constexpr int max_threads = 4;
constexpr int max_operations = 6;  // of one thread

enum class Kind : uint8_t { insert, remove, find };

struct Operation {
  Kind kind;
  uint8_t key;
};

// Keys stand as their ranks among those of the program, at most 24, so that a set of them is a mask.
struct Program {
  std::string tree;
  std::vector<uint8_t> initial;
  std::vector<std::vector<Operation>> threads;
};

using Keys = uint32_t;

inline Keys keys_of(const std::vector<uint8_t>& list) {
  Keys keys = 0;
  for (uint8_t key : list) keys |= Keys(1) << key;
  return keys;
}

// What the operation does to a set of keys, and its reply.
inline bool apply(Operation operation, Keys& keys) {
  Keys bit = Keys(1) << operation.key;
  bool present = (keys & bit) != 0;
  if (operation.kind == Kind::insert) keys |= bit;
  if (operation.kind == Kind::remove) keys &= ~bit;
  return operation.kind == Kind::insert ? !present : present;
}

inline uint8_t number_at(const std::string& text) { return uint8_t(std::stoi(text)); }

// The text between the quotes of the member's value.
inline std::string word_of(const std::string& text, const std::string& member) {
  size_t open = text.find('"', text.find(':', text.find("\"" + member + "\""))) + 1;
  return text.substr(open, text.find('"', open) - open);
}

inline void rank_keys(Program& program) {
  std::vector<uint8_t> keys = program.initial;
  for (const auto& operations : program.threads)
    for (Operation operation : operations) keys.push_back(operation.key);
  std::sort(keys.begin(), keys.end());
  keys.erase(std::unique(keys.begin(), keys.end()), keys.end());
  auto rank = [&](uint8_t key) { return uint8_t(std::lower_bound(keys.begin(), keys.end(), key) - keys.begin()); };
  for (uint8_t& key : program.initial) key = rank(key);
  for (auto& operations : program.threads)
    for (Operation& operation : operations) operation.key = rank(operation.key);
}

// Reads a well-formed program text of version 1, and nothing else: texts are not checked here.
inline Program parse(const std::string& text) {
  Program program;
  program.tree = word_of(text, "tree");
  size_t open = text.find('[', text.find("\"initial\"")), close = text.find(']', open);
  std::stringstream list(text.substr(open + 1, close - open - 1));
  for (std::string word; std::getline(list, word, ',');)
    if (word.find_first_of("0123456789") != std::string::npos) program.initial.push_back(number_at(word));
  size_t at = text.find('[', text.find("\"threads\"")) + 1;
  for (int depth = 1; depth > 0; ++at) {
    if (text[at] == '[') {
      ++depth;
      program.threads.emplace_back();
    } else if (text[at] == ']') {
      --depth;
    } else if (text[at] == '{') {
      size_t end = text.find('}', at);
      std::string one = text.substr(at, end - at), name = word_of(one, "op");
      Kind kind = name == "insert" ? Kind::insert : name == "delete" ? Kind::remove : Kind::find;
      size_t key = one.find_first_of("0123456789", one.find("\"key\""));
      program.threads.back().push_back({kind, number_at(one.substr(key))});
      at = end;
    }
  }
  rank_keys(program);
  return program;
}

#endif
