// ABRO in C++: `abro TEXT` prints the instants in which O is emitted.
#include <fstream>
#include <iostream>
#include <iterator>

#include "machine.hpp"

int main(int words, char **word) try {
  if (words != 2) return 2;
  std::ifstream file(word[1]);
  const std::string text{std::istreambuf_iterator<char>(file), {}};
  estserve::Machine machine(text, "ABRO");
  const uint64_t a = machine.bit("A"), b = machine.bit("B"), r = machine.bit("R"), o = machine.bit("O");
  int instant = 0;
  for (uint64_t inputs : {uint64_t{0}, a, b, a | b, r, a | b, a | b | r}) {
    instant++;
    if (const auto outputs = machine.react(inputs); outputs && *outputs & o) std::cout << instant << '\n';
  }
} catch (const std::runtime_error &fault) {
  std::cerr << fault.what() << '\n';
  return 1;
}
