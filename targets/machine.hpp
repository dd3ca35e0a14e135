// A class that owns a machine (estserve_react.h).
#ifndef ESTSERVE_MACHINE_HPP
#define ESTSERVE_MACHINE_HPP

#include <array>
#include <memory>
#include <optional>
#include <stdexcept>
#include <string>

#include "estserve_react.h"

namespace estserve {

class Machine {
 public:
  using State = std::array<uint8_t, EST_STATE_BYTES>;

  Machine(const std::string &text, const std::string &main) {
    est_machine *machine = nullptr;
    est_fault fault{};
    if (est_load(text.data(), text.size(), main.data(), main.size(), &machine, &fault))
      throw std::runtime_error(est_fault_name(fault.code) + place_of(fault));
    machine_.reset(machine);
  }

  // One instant: its outputs, or nothing where it is refused, and `given` tells why.
  std::optional<uint64_t> react(uint64_t inputs) {
    uint64_t outputs = 0;
    if (est_react(machine_.get(), inputs, &outputs)) return std::nullopt;
    return outputs;
  }
  uint64_t given() { return est_given(machine_.get()); }
  uint64_t inputs() { return est_inputs(machine_.get()); }
  uint64_t outputs() { return est_outputs(machine_.get()); }

  // The name of the signal at a place; none is empty.
  std::string signal(unsigned place) {
    char name[49];
    return std::string(name, est_signal(machine_.get(), place, name, sizeof name));
  }
  // The bit of a signal; 0 where there is none of this name.
  uint64_t bit(const std::string &name) {
    for (unsigned place = 0; place < 64; place++)
      if (signal(place) == name) return uint64_t{1} << place;
    return 0;
  }
  void reset() { est_reset(machine_.get()); }

  State save() {
    State state{};
    est_save(machine_.get(), state.data());
    return state;
  }
  bool restore(const State &state) { return est_restore(machine_.get(), state.data()) == EST_OK; }

 private:
  static std::string place_of(const est_fault &fault) {
    if (!fault.line) return "";
    return " at line " + std::to_string(fault.line) + ", column " + std::to_string(fault.column);
  }

  struct Free {
    void operator()(est_machine *machine) const { est_free(machine); }
  };
  std::unique_ptr<est_machine, Free> machine_;
};

}  // namespace estserve
#endif
