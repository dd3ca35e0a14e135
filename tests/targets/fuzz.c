/* fuzz COUNT TEXT ..: loads texts with bytes changed, put in, taken out or doubled, and runs those
 * that are loaded for some instants. Prints how many were loaded and how many refused. It is for the
 * sanitizers, which end it where a call goes wrong. */
#include <stdio.h>
#include <string.h>

#include "../../targets/estserve_react.h"

enum { MOST = 1 << 14 };

static char text[MOST], made[2 * MOST];

static uint64_t any(uint64_t below) {
  static uint64_t x = 88172645463325252u;
  x ^= x << 13, x ^= x >> 7, x ^= x << 17;
  return x % below;
}

static size_t mutate(size_t length) {
  memcpy(made, text, length);
  for (uint64_t more = any(4); more-- && length > 8 && length < MOST;) {
    size_t at = any(length - 8), count = 1 + any(8);
    switch (any(4)) {
      case 0: made[at] = (char)any(256); break;
      case 1: memmove(made + at, made + at + count, length - at - count), length -= count; break;
      case 2: memmove(made + at + count, made + at, length - at), length += count; break;
      default: made[at] = "ABCOR;[]%|,:=>#"[any(15)];
    }
  }
  return length;
}

static const char *main_of(size_t length, size_t *name_length) {
  static const char word[] = "module ";
  for (size_t at = 0; at + sizeof word < length; at++)
    if (!memcmp(made + at, word, sizeof word - 1)) {
      const char *name = made + at + sizeof word - 1;
      *name_length = strcspn(name, ": \n");
      return name;
    }
  *name_length = 1;
  return "M";
}

int main(int words, char **word) {
  long loaded = 0, refused = 0;
  if (words < 3) return 2;
  for (long n = atol(word[1]); n > 0; n--) {
    FILE *file = fopen(word[2 + n % (words - 2)], "rb");
    if (!file) return 2;
    size_t name_length, length = mutate(fread(text, 1, sizeof text - 8, file));
    fclose(file);
    est_machine *machine = NULL;
    struct est_fault fault;
    const char *name = main_of(length, &name_length);
    if (est_load(made, length, name, name_length, &machine, &fault)) {
      if (!fault.code || machine) return 3;
      refused++;
      continue;
    }
    uint64_t outputs;
    for (int instant = 0; instant < 8; instant++) (void)est_react(machine, any(16), &outputs);
    est_free(machine);
    loaded++;
  }
  printf("%ld loaded, %ld refused\n", loaded, refused);
  return 0;
}
