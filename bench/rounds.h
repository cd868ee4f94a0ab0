/* What the programs beside ours have in common: the files of a run, its rounds, and what is printed. */
#ifndef ROUNDS_H
#define ROUNDS_H
#include <stdint.h>
#include <stdio.h>
#include <stdlib.h>
#include <string.h>
#include <time.h>

typedef struct { uint8_t *bytes; size_t len; } Text;
typedef struct { uint64_t spans, sum; } Outcome;

static Text read_text(const char *path) {
  FILE *file = fopen(path, "rb");
  if (!file) { perror(path); exit(1); }
  fseek(file, 0, SEEK_END);
  size_t len = (size_t)ftell(file);
  rewind(file);
  uint8_t *bytes = (uint8_t *)malloc(len + 1);
  if (!bytes || fread(bytes, 1, len, file) != len) { perror(path); exit(1); }
  bytes[len] = 0;
  fclose(file);
  Text text = {bytes, len};
  return text;
}

static inline void add_span(Outcome *o, size_t start, size_t end) {
  o->spans++;
  o->sum += start * 31 + end;
}

static double now_ns(void) {
  struct timespec t;
  clock_gettime(CLOCK_MONOTONIC, &t);
  return (double)t.tv_sec * 1e9 + (double)t.tv_nsec;
}

static void tell(Outcome o, double ns) {
  printf("spans %llu sum %llu\n", (unsigned long long)o.spans, (unsigned long long)o.sum);
  fprintf(stderr, "ns %.0f\n", ns);
}
#endif
