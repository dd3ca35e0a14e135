/* run TEXT MAIN < INPUTS: runs a module over the instants of a list, and prints the table that
 * `estserve-client run` prints. An instant of the list ends with its line, or with `;`. It has the
 * names of the signals that are offered; what follows % is a comment. A blank line is an instant
 * without inputs, unless it is at the end of the list. It stops at an instant that is refused, and
 * ends with 20 and its status; with 10 where the text is refused, and 11 at a name of no signal. */
#include <stdio.h>
#include <stdlib.h>
#include <string.h>

#include "estserve_react.h"

#define BLANKS " \t\r\n\f\v"

enum { MOST_INSTANTS = 4096, WIDTH = 64 * 49, LINE = 1 << 16 };

struct instant {
  uint64_t inputs, present;
};

static char text[1 << 17], names[64][65];
static struct instant instants[MOST_INSTANTS];
static int listed; /* instants of the list */

static size_t read_text(const char *path) {
  FILE *file = fopen(path, "rb");
  if (!file) return 0;
  size_t length = fread(text, 1, sizeof text, file);
  fclose(file);
  return length;
}

static uint64_t mask_of(char *piece) {
  uint64_t mask = 0;
  for (char *word = strtok(piece, BLANKS); word; word = strtok(NULL, BLANKS)) {
    int n = 0;
    while (n < 64 && strcmp(word, names[n])) n++;
    if (n == 64) {
      fprintf(stderr, "there is no signal %s\n", word);
      exit(11);
    }
    mask |= (uint64_t)1 << n;
  }
  return mask;
}

static int is_blank(const char *piece) { return !piece[strspn(piece, BLANKS)]; }

/* Adds the instants of a line. */
static void add_line(char *line) {
  while (line && listed < MOST_INSTANTS) {
    char *end = strchr(line, ';');
    if (end) *end++ = 0;
    instants[listed++].inputs = mask_of(line);
    line = end && !is_blank(end) ? end : NULL;
  }
}

static void read_list(void) {
  static char line[LINE];
  int last = 0;
  while (fgets(line, sizeof line, stdin)) {
    char *comment = strchr(line, '%');
    if (comment) *comment = 0;
    int is_empty = is_blank(line);
    if (!is_empty || !comment) add_line(line);
    if (!is_empty) last = listed;
  }
  listed = last;
}

static const char *names_of(uint64_t mask, char *buffer) {
  buffer[0] = 0;
  for (int n = 0; n < 64; n++)
    if (mask >> n & 1) strcat(strcat(buffer, *buffer ? " " : ""), names[n]);
  return buffer;
}

/* One kind of signals: those that the table puts into one column. */
struct column {
  const char *head;
  uint64_t signals;
  int width;
};

static void print_row(const char *first, const struct column *columns, const uint64_t *masks) {
  static char row[4 * WIDTH], cell[WIDTH];
  int length = sprintf(row, "%7s", first);
  for (int n = 0; n < 3; n++)
    if (columns[n].signals || n != 1)
      length += sprintf(row + length, "  %-*s", columns[n].width,
                        masks ? names_of(masks[n], cell) : columns[n].head);
  while (length > 0 && row[length - 1] == ' ') row[--length] = 0;
  puts(row);
}

static void masks_of(struct instant instant, const struct column *columns, uint64_t *masks) {
  for (int n = 0; n < 3; n++)
    masks[n] = (n == 0 ? instant.inputs : instant.present) & columns[n].signals;
}

static void print_table(int count, uint64_t offered, uint64_t emitted) {
  struct column columns[] = {{"inputs", offered & ~emitted, 6},
                             {"inouts", offered & emitted, 6},
                             {"outputs", emitted & ~offered, 7}};
  static char cell[WIDTH];
  uint64_t masks[3];
  for (int i = 0; i < count; i++) {
    masks_of(instants[i], columns, masks);
    for (int n = 0; n < 3; n++) {
      int width = (int)strlen(names_of(masks[n], cell));
      if (width > columns[n].width) columns[n].width = width;
    }
  }
  print_row("instant", columns, NULL);
  for (int i = 0; i < count; i++) {
    char number[16];
    sprintf(number, "%d", i + 1);
    masks_of(instants[i], columns, masks);
    print_row(number, columns, masks);
  }
}

int main(int words, char **word) {
  size_t length = words == 3 ? read_text(word[1]) : 0;
  est_machine *machine = NULL;
  struct est_fault fault;
  if (!length) return 2;
  if (est_load(text, length, word[2], strlen(word[2]), &machine, &fault)) {
    fprintf(stderr, "refused: fault %d at line %d, column %d\n", (int)fault.code, (int)fault.line,
            (int)fault.column);
    return 10;
  }
  for (unsigned n = 0; n < 64; n++) est_signal(machine, n, names[n], sizeof names[n]);
  read_list();
  int count = 0, status = EST_OK;
  while (count < listed) {
    uint64_t inputs = instants[count].inputs, outputs;
    status = est_react(machine, inputs, &outputs);
    if (status != EST_OK) break;
    instants[count++].present = inputs | outputs;
  }
  print_table(count, est_inputs(machine), est_outputs(machine));
  est_free(machine);
  return status == EST_OK ? 0 : 20 + status;
}
