/* memory TEXT MAIN, linked with --wrap=malloc, realloc and free: refuses each growth of a load in
 * turn. The load answers EST_MEMORY, or goes well; and all memory is given back. Then it sees that no
 * other call but est_free takes memory or gives it back. Prints how many growths were refused. */
#include <stdio.h>
#include <string.h>

#include "../../targets/estserve_react.h"

void *__real_malloc(size_t size);
void *__real_realloc(void *block, size_t size);
void __real_free(void *block);
void *__wrap_malloc(size_t size);
void *__wrap_realloc(void *block, size_t size);
void __wrap_free(void *block);

static long calls, refused_at = -1, held;

static int is_refused(void) { return calls++ == refused_at; }

void *__wrap_malloc(size_t size) {
  void *block = is_refused() ? NULL : __real_malloc(size);
  held += block != NULL;
  return block;
}

void *__wrap_realloc(void *block, size_t size) {
  return is_refused() ? NULL : __real_realloc(block, size);
}

void __wrap_free(void *block) {
  calls++;
  held -= block != NULL;
  __real_free(block);
}

static char text[1 << 17];

int main(int words, char **word) {
  if (words != 3) return 2;
  FILE *file = fopen(word[1], "rb");
  if (!file) return 2;
  size_t length = fread(text, 1, sizeof text, file);
  fclose(file);
  long refusals = 0, before = held;
  est_machine *machine = NULL;
  struct est_fault fault;
  for (long at = 0;; at++) {
    calls = 0, refused_at = at;
    int code = est_load(text, length, word[2], strlen(word[2]), &machine, &fault);
    if (calls <= at) {
      if (code) return 3;
      break;
    }
    if (code == EST_MEMORY && fault.code == EST_MEMORY) refusals++;
    else if (code) return 4;
    else est_free(machine);
    if (held != before) return 5;
  }
  uint8_t saved[EST_STATE_BYTES];
  uint64_t outputs;
  calls = 0;
  for (uint64_t inputs = 0; inputs < 256; inputs++) (void)est_react(machine, inputs, &outputs);
  est_save(machine, saved);
  (void)est_restore(machine, saved);
  est_reset(machine);
  if (calls) return 6;
  est_free(machine);
  if (held != before) return 7;
  printf("%ld\n", refusals);
  return 0;
}
