/* states TEXT MAIN OTHER OTHER_MAIN STEPS: walks at random, and sees that a state that was saved is
 * restored in a second machine, which then answers the same; that a state of the other text, and one
 * with a byte changed in its digest, are refused and change nothing. */
#include <stdio.h>
#include <string.h>

#include "../../targets/estserve_react.h"

static char text[1 << 17];

static est_machine *load(const char *path, const char *name) {
  FILE *file = fopen(path, "rb");
  est_machine *machine = NULL;
  struct est_fault fault;
  if (!file) return NULL;
  size_t length = fread(text, 1, sizeof text, file);
  fclose(file);
  return est_load(text, length, name, strlen(name), &machine, &fault) ? NULL : machine;
}

static uint64_t random_mask(void) {
  static uint64_t x = 88172645463325252u;
  x ^= x << 13, x ^= x >> 7, x ^= x << 17;
  return x;
}

int main(int words, char **word) {
  uint8_t saved[EST_STATE_BYTES], before[EST_STATE_BYTES], after[EST_STATE_BYTES];
  if (words != 6) return 2;
  est_machine *first = load(word[1], word[2]), *second = load(word[1], word[2]);
  est_machine *other = load(word[3], word[4]);
  if (!first || !second || !other) return 3;
  for (long step = atol(word[5]); step > 0; step--) {
    uint64_t inputs = random_mask() & random_mask() & est_inputs(first), a = 0, b = 0;
    est_save(first, saved);
    if (est_restore(second, saved) != EST_OK) return 4;
    int status = est_react(first, inputs, &a);
    if (status != est_react(second, inputs, &b) || a != b) return 5;
    est_save(first, after);
    if (status != EST_OK && memcmp(saved, after, sizeof saved)) return 6;
    est_save(other, before);
    if (est_restore(other, saved) != EST_OTHER_STATE) return 7;
    est_save(other, after);
    if (memcmp(before, after, sizeof after)) return 8;
    saved[step % EST_DIGEST_WORDS] ^= 1;
    if (est_restore(second, saved) != EST_OTHER_STATE) return 9;
    if (random_mask() % 64 == 0) est_reset(first);
  }
  est_free(first), est_free(second), est_free(other);
  puts("states: as they should be");
  return 0;
}
