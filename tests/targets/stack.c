/* stack TEXT MAIN: tells how many bytes of stack a load takes, and then a reaction: the greater one of
 * those without inputs and with all of them.
 *
 * Each runs in a thread whose stack is painted: what is no longer painted was used. */
#define _POSIX_C_SOURCE 200809L /* of threads with a stack of their own */
#include <pthread.h>
#include <stdio.h>
#include <stdlib.h>
#include <string.h>

#include "../../targets/estserve_react.h"

enum { STACK_BYTES = 1 << 23, PAINT = 0xA5 };

static char text[1 << 17];
static size_t length;
static const char *name;
static est_machine *machine;
static int status;

static void *load(void *unused) {
  struct est_fault fault;
  (void)unused;
  status = est_load(text, length, name, strlen(name), &machine, &fault);
  return NULL;
}

static void *react(void *inputs) {
  uint64_t outputs;
  est_reset(machine);
  status = est_react(machine, inputs ? est_inputs(machine) : 0, &outputs);
  return NULL;
}

static long used_by(void *(*work)(void *), void *given) {
  pthread_attr_t attributes;
  pthread_t thread;
  unsigned char *stack;
  long free_bytes = 0;
  if (posix_memalign((void **)&stack, 4096, STACK_BYTES)) exit(1);
  memset(stack, PAINT, STACK_BYTES);
  pthread_attr_init(&attributes);
  pthread_attr_setstack(&attributes, stack, STACK_BYTES);
  if (pthread_create(&thread, &attributes, work, given) || pthread_join(thread, NULL)) exit(1);
  while (stack[free_bytes] == PAINT) free_bytes++;
  free(stack);
  return STACK_BYTES - free_bytes;
}

static void *nothing(void *unused) { return unused; }

int main(int words, char **word) {
  FILE *file = words == 3 ? fopen(word[1], "rb") : NULL;
  if (!file) return 2;
  length = fread(text, 1, sizeof text, file);
  fclose(file);
  name = word[2];
  long thread = used_by(nothing, NULL), loading = used_by(load, NULL) - thread;
  if (status) return 1;
  long without = used_by(react, NULL), with = used_by(react, word);
  printf("%ld %ld\n", loading, (with > without ? with : without) - thread);
  return 0;
}
