/* The choice of a model through the C face: three readings that warm up by a degree each, with metadata of 12 bytes and of
 * 2; then the fewest readings whose costs are told as the same f32 and are not the same. It is C and C++ alike.
 *
 *    cc -Iinclude examples/choice.c target/staticlib/libexports_choice.a -o choice && ./choice
 */
#include "modelardb.h"
#include <stdio.h>
#include <string.h>

#define COUNT 2948

static int64_t times[COUNT];
static uint32_t values[COUNT];

static uint32_t bits_of(float value) {
  uint32_t bits;
  memcpy(&bits, &value, sizeof bits);
  return bits;
}

/* What is chosen for the first `count` of the readings, within an absolute bound and with metadata of m bytes. */
static int show(size_t count, float bound, size_t m) {
  uint64_t chosen[MODELARDB_CHOSEN_WORDS];
  uint32_t told;
  float cost;
  modelardb_fault fault = modelardb_choose_model(times, count, values, count, MODELARDB_ABSOLUTE, bits_of(bound), m,
                                                 chosen, MODELARDB_CHOSEN_WORDS);
  if (fault.number != MODELARDB_ACCEPTED) {
    printf("%zu readings, M %zu: refused %u\n", count, m, (unsigned)fault.number);
    return 1;
  }
  told = (uint32_t)chosen[MODELARDB_CHOSEN_BYTES_PER_VALUE];
  memcpy(&cost, &told, sizeof cost);
  printf("%zu readings, M %zu: %s for %u, %.7g bytes a reading\n", count, m,
         chosen[MODELARDB_CHOSEN_MODEL] == MODELARDB_SWING ? "Swing" : "PMC-Mean",
         (unsigned)chosen[MODELARDB_CHOSEN_LENGTH], (double)cost);
  return 0;
}

int main(void) {
  size_t i;
  for (i = 0; i < COUNT; i++) {
    times[i] = (int64_t)i;
    values[i] = bits_of((float)i);
  }
  if (show(3, 0.5f, 12) + show(3, 0.5f, 2) + show(COUNT, 1473, 2947) + show(COUNT, 1473, 2948)) return 1;
  show(3, 0.5f, 0);
  return fflush(stdout) == 0 ? 0 : 1;
}
