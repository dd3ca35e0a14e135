/* abro TEXT < INPUTS: runs ABRO, an instant for each line. A line has the letters of the signals that
 * are offered, as `A B`; the instants in which O is emitted are printed. */
#include <stdio.h>
#include <string.h>

#include "estserve_react.h"

static char text[1 << 17];

int main(int words, char **word) {
  FILE *file = words == 2 ? fopen(word[1], "rb") : NULL;
  est_machine *machine = NULL;
  struct est_fault fault;
  char line[80];
  if (!file) return 2;
  size_t length = fread(text, 1, sizeof text, file);
  fclose(file);
  if (est_load(text, length, "ABRO", 4, &machine, &fault)) {
    fputs(est_fault_name(fault.code), stderr);
    if (fault.line) fprintf(stderr, " at line %d, column %d", (int)fault.line, (int)fault.column);
    fputs("\n", stderr);
    return 1;
  }
  for (int instant = 1; fgets(line, sizeof line, stdin); instant++) {
    uint64_t outputs, inputs = 0;
    for (unsigned place = 0; place < 3; place++)
      if (strchr(line, "ABR"[place])) inputs |= (uint64_t)1 << place;
    if (est_react(machine, inputs, &outputs) == EST_OK && (outputs >> 3 & 1)) printf("%d\n", instant);
  }
  est_free(machine);
  return 0;
}
