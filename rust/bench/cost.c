/* What the calls on a stream cost without the Rust face: nanoseconds a value of streams of 65,536 readings. Prints a
 * line for each job and each kind of bound: the job, the kind, and the best of its rounds. tools/cost compiles and runs it. */
#include "modelardb.h"
#include <stdio.h>
#include <string.h>
#include <time.h>

/* A row is lent more words than a state has today, so that libraries of other days can be timed beside each other. */
enum { STREAMS = 16, VALUES = 65536, BYTES = 6 * VALUES, ROUNDS = 9, ROW = 16, BOUNDS = 3, JOBS = 8, END = 16 };

/* A library that was made before there were place tables, or before there was a rescue, has no such call, and then that
 * job is left out. */
#pragma weak modelardb_table_compress_values
#pragma weak modelardb_macaque_v_rescue

static uint32_t values[STREAMS][VALUES];
static uint8_t stored[STREAMS][BYTES];
static size_t used[STREAMS];
static uint8_t buffer[BYTES];
static uint32_t out[VALUES];
static uint64_t row[ROW];
static uint64_t table[MODELARDB_ENTRY_WORDS * (VALUES / MODELARDB_VALUES_PER_ENTRY)];
static const float bounds[BOUNDS] = {0.0f, 0.1f, 1.0f};

static double now(void) {
  struct timespec t;
  clock_gettime(CLOCK_MONOTONIC, &t);
  return 1e9 * (double)t.tv_sec + (double)t.tv_nsec;
}

/* A temperature that stays in four readings of ten, and else moves by up to three sixteenths. */
static void fill(void) {
  uint32_t drawn = 12345;
  for (int s = 0; s < STREAMS; s++) {
    float reading = 20.0f;
    for (int i = 0; i < VALUES; i++) {
      drawn = drawn * 1103515245u + 12345u;
      int move = (int)((drawn >> 16) % 10u);
      if (move < 6) reading += 0.0625f * (float)(move < 3 ? move - 3 : move - 2);
      memcpy(&values[s][i], &reading, sizeof reading);
    }
  }
}

/* Each job does one stream, and answers the fault's number. */
static uint32_t written(int s, uint32_t kind, uint32_t bound) {
  modelardb_macaque_v_new(kind, bound, 0, 0, row, ROW);
  return modelardb_macaque_v_compress_values(row, ROW, values[s], VALUES, buffer, BYTES).number;
}

/* Into no more bytes than such values may take. */
static uint32_t fitted(int s, uint32_t kind, uint32_t bound) {
  modelardb_macaque_v_new(kind, bound, 0, 0, row, ROW);
  return modelardb_macaque_v_compress_values(row, ROW, values[s], VALUES, buffer, MODELARDB_ROOM(VALUES)).number;
}

static uint32_t tabled(int s, uint32_t kind, uint32_t bound) {
  size_t entries = 0;
  modelardb_macaque_v_new(kind, bound, 0, 0, row, ROW);
  return modelardb_table_compress_values(row, ROW, values[s], VALUES, buffer, BYTES, table, sizeof table / sizeof table[0],
                                         &entries)
      .number;
}

static uint32_t read_whole(int s, uint32_t kind, uint32_t bound) {
  (void)kind, (void)bound;
  return modelardb_macaque_v_grid(stored[s], used[s], VALUES, 0, 0, out, VALUES).number;
}

static uint32_t summed(int s, uint32_t kind, uint32_t bound) {
  (void)kind, (void)bound;
  return modelardb_macaque_v_sum(stored[s], used[s], VALUES, 0, 0, out, 1).number;
}

static uint32_t reopened(int s, uint32_t kind, uint32_t bound) {
  return modelardb_macaque_v_reopen(stored[s], BYTES, used[s], VALUES, VALUES, 0, 0, kind, bound, row, ROW).number;
}

static uint32_t rescued(int s, uint32_t kind, uint32_t bound) {
  return modelardb_macaque_v_rescue(stored[s], BYTES, used[s], VALUES, 0, 0, kind, bound, row, ROW).number;
}

/* Without its last byte. What is zeroed behind the last whole value lies among the last bytes, and is put back. */
static uint32_t cut(int s, uint32_t kind, uint32_t bound) {
  uint8_t *end = stored[s] + used[s] - END, was[END];
  memcpy(was, end, END);
  uint32_t number = modelardb_macaque_v_rescue(stored[s], BYTES, used[s] - 1, VALUES, 0, 0, kind, bound, row, ROW).number;
  memcpy(end, was, END);
  return number;
}

typedef uint32_t (*run)(int s, uint32_t kind, uint32_t bound);

static const struct job {
  const char *name;
  run run;
} jobs[JOBS] = {{"written", written}, {"fitted", fitted},     {"tabled", tabled},   {"read", read_whole},
                {"summed", summed},   {"reopened", reopened}, {"rescued", rescued}, {"cut", cut}};

/* Whether the library has what a job calls. */
static int is_there(run job) {
  if (job == tabled) return modelardb_table_compress_values != NULL;
  if (job == rescued || job == cut) return modelardb_macaque_v_rescue != NULL;
  return 1;
}

/* The streams that the other jobs read. */
static int store(uint32_t kind, uint32_t bound) {
  for (int s = 0; s < STREAMS; s++) {
    if (written(s, kind, bound) != 0) return 0;
    used[s] = (size_t)((row[MODELARDB_WRITER_PLACE] + 7) / 8);
    memcpy(stored[s], buffer, used[s]);
  }
  return 1;
}

int main(void) {
  fill();
  for (uint32_t kind = 0; kind < BOUNDS; kind++) {
    double best[JOBS] = {0};
    uint32_t bound;
    memcpy(&bound, &bounds[kind], sizeof bound);
    if (!store(kind, bound)) return 1;
    for (int round = 0; round < ROUNDS; round++)
      for (int j = 0; j < JOBS; j++) {
        if (!is_there(jobs[j].run)) continue;
        double begin = now();
        for (int s = 0; s < STREAMS; s++)
          if (jobs[j].run(s, kind, bound) != 0) return 1;
        double time = (now() - begin) / ((double)STREAMS * VALUES);
        if (best[j] == 0.0 || time < best[j]) best[j] = time;
      }
    for (int j = 0; j < JOBS; j++)
      if (best[j] > 0.0) printf("%s %u %.3f\n", jobs[j].name, (unsigned)kind, best[j]);
  }
  return 0;
}
