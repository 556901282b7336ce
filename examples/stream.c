/* Document 01's marked case a through the C face: three values written as a stream, and read back; their mean, from the
 * state alone; then the same stream without its last byte: where it breaks, what is rescued, and how that goes on. It is
 * C and C++ alike.
 *
 *    cc -Iinclude examples/stream.c target/staticlib/libexports_stream.a -o stream && ./stream
 */
#include "modelardb.h"
#include <stdio.h>
#include <string.h>

#define COUNT 3

static int refused(modelardb_fault fault) {
  fprintf(stderr, "refused %u\n", (unsigned)fault.number);
  return 1;
}

int main(void) {
  const uint32_t values[COUNT] = {0x3F800000, 0x3F800000, 0x40000000}; /* 1.0, 1.0, 2.0 */
  uint32_t out[COUNT];
  uint64_t state[MODELARDB_WRITER_WORDS];
  uint8_t buffer[MODELARDB_ROOM(COUNT)];
  uint32_t bits;
  float sum;
  size_t used, kept, i;
  modelardb_fault fault;

  fault = modelardb_macaque_v_new(MODELARDB_LOSSLESS, 0, MODELARDB_FIRST, 0, state, MODELARDB_WRITER_WORDS);
  if (fault.number != MODELARDB_ACCEPTED) return refused(fault);
  fault = modelardb_macaque_v_compress_values(state, MODELARDB_WRITER_WORDS, values, COUNT, buffer, sizeof buffer);
  if (fault.number != MODELARDB_ACCEPTED) return refused(fault);
  used = (size_t)MODELARDB_BYTES(state[MODELARDB_WRITER_PLACE]);
  for (i = 0; i < used; i++) printf("%02X ", buffer[i]);

  fault = modelardb_macaque_v_grid(buffer, used, COUNT, MODELARDB_FIRST, 0, out, COUNT);
  if (fault.number != MODELARDB_ACCEPTED) return refused(fault);
  printf("reads back as %08X %08X %08X\n", (unsigned)out[0], (unsigned)out[1], (unsigned)out[2]);

  bits = (uint32_t)state[MODELARDB_WRITER_SUM];
  memcpy(&sum, &bits, sizeof sum);
  printf("sum %g, mean %.4f\n", (double)sum, (double)sum / (double)state[MODELARDB_WRITER_LENGTH]);

  fault = modelardb_macaque_v_grid(buffer, used - 1, COUNT, MODELARDB_FIRST, 0, out, COUNT);
  printf("without its last byte: refused %u at value %u, bit %zu\n", (unsigned)fault.number, (unsigned)fault.value,
         fault.place);

  /* What arrived whole, up to the count, is kept, and the rest is written again. */
  fault = modelardb_macaque_v_rescue(buffer, sizeof buffer, used - 1, COUNT, MODELARDB_FIRST, 0, MODELARDB_LOSSLESS, 0,
                                     state, MODELARDB_WRITER_WORDS);
  if (fault.number != MODELARDB_ACCEPTED) return refused(fault);
  kept = (size_t)state[MODELARDB_WRITER_LENGTH];
  printf("rescued %zu values in %u bits, gone on to", kept, (unsigned)state[MODELARDB_WRITER_PLACE]);
  fault = modelardb_macaque_v_compress_values(state, MODELARDB_WRITER_WORDS, values + kept, COUNT - kept, buffer,
                                              sizeof buffer);
  if (fault.number != MODELARDB_ACCEPTED) return refused(fault);
  used = (size_t)MODELARDB_BYTES(state[MODELARDB_WRITER_PLACE]);
  for (i = 0; i < used; i++) printf(" %02X", buffer[i]);
  printf("\n");
  return fflush(stdout) == 0 ? 0 : 1;
}
