/* A place table through the C face: a night of 200 values written with a table beside the stream, in a buffer that any
 * such night fits in, and six of them read without the rest; then with the table of no stream. It is C and C++ alike.
 *
 *    cc -Iinclude examples/table.c target/staticlib/libexports_table.a target/staticlib/libexports_stream.a \
 *       -o table && ./table
 */
#include "modelardb.h"
#include <stdio.h>

#define COUNT 200
#define P 130
#define Q 136

static int refused(modelardb_fault fault) {
  fprintf(stderr, "refused %u\n", (unsigned)fault.number);
  return 1;
}

int main(void) {
  uint32_t values[COUNT], out[Q - P];
  uint64_t state[MODELARDB_WRITER_WORDS], table[MODELARDB_TABLE_ROOM(COUNT)];
  uint8_t buffer[MODELARDB_ROOM(COUNT)];
  size_t most, used, entries = 0, i;
  modelardb_fault fault;

  for (i = 0; i < COUNT; i++) values[i] = 0x41A00000 + (uint32_t)(i / 3) * 0x2000; /* from 20.0 on */
  fault = modelardb_macaque_v_new(MODELARDB_LOSSLESS, 0, MODELARDB_FIRST, 0, state, MODELARDB_WRITER_WORDS);
  if (fault.number != MODELARDB_ACCEPTED) return refused(fault);
  fault = modelardb_table_compress_values(state, MODELARDB_WRITER_WORDS, values, COUNT, buffer, sizeof buffer, table,
                                          MODELARDB_TABLE_ROOM(COUNT), &entries);
  if (fault.number != MODELARDB_ACCEPTED) return refused(fault);
  used = (size_t)MODELARDB_BYTES(state[MODELARDB_WRITER_PLACE]);
  fault = modelardb_macaque_v_most_bytes(COUNT, MODELARDB_FIRST, &most);
  if (fault.number != MODELARDB_ACCEPTED) return refused(fault);
  printf("%d values in %zu bytes, of %zu at most, %zu entries\n", COUNT, used, most, entries);

  fault = modelardb_table_check(buffer, used, COUNT, MODELARDB_FIRST, 0, table, MODELARDB_TABLE_ROOM(COUNT), entries);
  if (fault.number != MODELARDB_ACCEPTED) return refused(fault);
  fault = modelardb_table_range(buffer, used, COUNT, MODELARDB_FIRST, 0, table, MODELARDB_TABLE_ROOM(COUNT), entries,
                                P, Q, out, Q - P);
  if (fault.number != MODELARDB_ACCEPTED) return refused(fault);
  printf("values %d to %d:", P, Q - 1);
  for (i = 0; i < Q - P; i++) printf(" %08X", (unsigned)out[i]);

  table[2 * MODELARDB_ENTRY_WORDS + MODELARDB_ENTRY_PLACE] = 8 * used + 1;
  fault = modelardb_table_range(buffer, used, COUNT, MODELARDB_FIRST, 0, table, MODELARDB_TABLE_ROOM(COUNT), entries,
                                P, Q, out, Q - P);
  printf("\nfrom a place behind the last bit: refused %u\n", (unsigned)fault.number);
  return fflush(stdout) == 0 ? 0 : 1;
}
