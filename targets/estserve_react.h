/* A module of Pure Esterel that runs inside a C or C++ program, by estserve's proved engine.
 *
 * Signals have places in the module's interface, from 0 on, in the order of its text; there are at
 * most 64. A set of signals is a mask: signal n is bit n.
 *
 * Who owns what: est_load makes a machine, which is the caller's until est_free. It keeps nothing
 * of the text, of the name or of a buffer after the call. Only est_load takes memory.
 *
 * Proved: what est_ask and est_load_module answer, and that a machine lies at the pointer after a
 * load with status 0, and after each est_ask. Trusted: that the pointer comes from est_load and was
 * not freed, that two calls never use one machine at a time, that lengths are true, that malloc and
 * free are of one allocator, this header, and the C compiler.
 *
 * Stack: loading and reacting go as deep as the kernel's statements are nested. Measured: up to 3.7
 * KB for each level to load, and 0.3 KB to react; docs/TARGET.md has more.
 */
#ifndef ESTSERVE_REACT_H
#define ESTSERVE_REACT_H

#include <stddef.h>
#include <stdint.h>
#include <stdlib.h>

#ifdef __cplusplus
extern "C" {
#endif

/* The statuses of all calls that have one.
 *
 *                      est_react  est_restore  est_given then has
 *   EST_OK             yes        yes          the outputs
 *   EST_STUCK          yes        -            the undecided outputs and inputoutputs, as a mask
 *   EST_BROKEN         yes        -            the number of the broken relation, from 1
 *   EST_NOT_INPUTS     yes        -            the signals that can't be offered, as a mask
 *   EST_OTHER_STATE    -          yes          what it had
 *
 * At each but EST_OK the machine stays as it was. est_reset and est_free can't fail. */
enum est_status {
  EST_OK = 0,
  EST_STUCK = 1,
  EST_BROKEN = 2,
  EST_NOT_INPUTS = 3,
  EST_OTHER_STATE = 4
};

/* est_load answers 0, or the number of a fault: 70 to 80 as the server's (docs/PROTOCOL.md), or one
 * of these. No machine is made then. */
enum est_load_fault {
  EST_MEMORY = 90,  /* memory was refused */
  EST_NOT_TEXT = 100 /* the text, or the name of the main module, isn't UTF-8 */
};

/* Why a load was refused. Lines and columns count from 1, columns in bytes; both are 0 where the
 * fault is no place in the text. */
struct est_fault {
  uint64_t code, line, column;
};

typedef struct est_machine est_machine;

/* What the library exports; use the functions below. */
uint64_t est_load_module(const uint8_t *main, size_t main_length, const uint8_t *text,
                         size_t text_length, est_machine **machine, struct est_fault *fault);
uint64_t est_ask(est_machine *machine, uint64_t question, uint64_t argument);

enum est_question {
  EST_ASK_REACT = 0,
  EST_ASK_GIVEN = 1,
  EST_ASK_RESET = 2,
  EST_ASK_INPUTS = 3,
  EST_ASK_OUTPUTS = 4,
  EST_ASK_LETTER = 5,
  EST_ASK_END = 6,
  EST_ASK_SAVED = 7,
  EST_ASK_RESTORE = 8,
  EST_ASK_PUT = 64
};

/* The words that keep a state: 32 bytes of the module's digest, the kind of the state, and 32 words
 * with a bit for each pause. */
enum est_word { EST_DIGEST_WORDS = 32, EST_PAUSE_WORDS = 32, EST_STATE_BYTES = 32 + 1 + 8 * 32 };

/* A machine for the module `main` of a text, before its first instant, through `machine`. Answers 0
 * or the number of the fault. */
static inline int est_load(const char *text, size_t text_length, const char *main_module,
                           size_t main_length, est_machine **machine, struct est_fault *fault) {
  return (int)est_load_module((const uint8_t *)main_module, main_length, (const uint8_t *)text,
                              text_length, machine, fault);
}

/* The name of a fault of est_load. */
static inline const char *est_fault_name(uint64_t code) {
  static const char *const names[] = {"Lexical",       "Syntax",        "UnknownModule",
                                      "RecursiveRun",  "UnknownName",   "DuplicateName",
                                      "EmitInput",     "BadRename",     "InstantLoop",
                                      "TooLarge",      "Semantics"};
  if (code >= 70 && code <= 80) return names[code - 70];
  return code == EST_MEMORY ? "Memory" : code == EST_NOT_TEXT ? "NotText" : "";
}

/* What the last est_react gave: see the table above; 0 before the first. */
static inline uint64_t est_given(est_machine *machine) {
  return est_ask(machine, EST_ASK_GIVEN, 0);
}

/* One instant with these inputs. EST_OK: `outputs` has those outputs and inputoutputs that are
 * emitted. Else the machine stays as it was, and `outputs` is 0. */
static inline int est_react(est_machine *machine, uint64_t inputs, uint64_t *outputs) {
  int status = (int)est_ask(machine, EST_ASK_REACT, inputs);
  *outputs = status == EST_OK ? est_given(machine) : 0;
  return status;
}

/* Back to before the first instant. */
static inline void est_reset(est_machine *machine) { (void)est_ask(machine, EST_ASK_RESET, 0); }

/* The signals that may be offered, and those that may be emitted. An inputoutput is in both. */
static inline uint64_t est_inputs(est_machine *machine) {
  return est_ask(machine, EST_ASK_INPUTS, 0);
}
static inline uint64_t est_outputs(est_machine *machine) {
  return est_ask(machine, EST_ASK_OUTPUTS, 0);
}

/* The name of the signal at a place (0 to 63), cut to the buffer and ended by a zero byte. Answers
 * its length, at most 48; 0 where there is no such signal. */
static inline size_t est_signal(est_machine *machine, unsigned place, char *buffer, size_t length) {
  size_t n = 0;
  uint64_t letter;
  for (; n < 64 && (letter = est_ask(machine, EST_ASK_LETTER, place * 64u + n)); n++)
    if (n + 1 < length) buffer[n] = (char)letter;
  if (length > 0) buffer[n < length ? n : length - 1] = 0;
  return n;
}

/* How many bytes est_save writes. They are the same on each machine. */
static inline size_t est_state_size(void) { return EST_STATE_BYTES; }

/* Writes where the machine stands into `buffer`, which has room for est_state_size() bytes. */
static inline void est_save(est_machine *machine, uint8_t *buffer) {
  for (unsigned n = 0; n <= EST_DIGEST_WORDS; n++)
    buffer[n] = (uint8_t)est_ask(machine, EST_ASK_SAVED, n);
  for (unsigned n = 0; n < EST_PAUSE_WORDS; n++) {
    uint64_t word = est_ask(machine, EST_ASK_SAVED, EST_DIGEST_WORDS + 1u + n);
    for (unsigned byte = 0; byte < 8; byte++)
      buffer[EST_DIGEST_WORDS + 1u + 8 * n + byte] = (uint8_t)(word >> 8 * byte);
  }
}

/* Goes where a machine stood of which est_save wrote these bytes: EST_OK. A state of another text or
 * another main module, and bytes that est_save never wrote, are refused: EST_OTHER_STATE. */
static inline int est_restore(est_machine *machine, const uint8_t *buffer) {
  for (unsigned n = 0; n <= EST_DIGEST_WORDS; n++)
    (void)est_ask(machine, EST_ASK_PUT + n, buffer[n]);
  for (unsigned n = 0; n < EST_PAUSE_WORDS; n++) {
    uint64_t word = 0;
    for (unsigned byte = 0; byte < 8; byte++)
      word |= (uint64_t)buffer[EST_DIGEST_WORDS + 1u + 8 * n + byte] << 8 * byte;
    (void)est_ask(machine, EST_ASK_PUT + 1u + EST_DIGEST_WORDS + n, word);
  }
  return est_ask(machine, EST_ASK_RESTORE, 0) == 0 ? EST_OK : EST_OTHER_STATE;
}

/* Gives back all memory of a machine; NULL is let be. */
static inline void est_free(est_machine *machine) {
  if (machine) {
    (void)est_ask(machine, EST_ASK_END, 0);
    free(machine);
  }
}

#ifdef __cplusplus
}
#endif
#endif
