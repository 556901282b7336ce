/* The C face of the proved library. Each part names the static library that holds its calls: NAME is made by
 * `tools/archives` of the crate NAME_c, as target/staticlib/libNAME.a. Several of them link into one program. The
 * first part is that of `exports`.
 *
 * Floats cross as their bits. A NaN that is computed is answered as 7FC00000 or 7FF8000000000000; the values of a
 * stream keep their bits. A call that can be refused answers a modelardb_fault, whose number is 0 or that of the
 * refusal, and then it has changed no memory that it was lent. Where several causes apply, the first is answered
 * in the order 1, 2, 3, 12, 13, 4, 10, 9, 11, and then 5 to 8 by the first place in the stream. Each call below
 * lists its own causes in that order. Those of a stream, 5 to 8, say at which value and at which bit it broke.
 *
 * A state crosses as a row of 64-bit words. A row that holds fewer words than the state has, or words that no
 * such state has, stands for none: a call that reads it is refused with 2. It is refused with 1 before that if
 * the two words of its bound (of a builder, of either bound) are there and are no allowed bound. Where a row is
 * output alone (new, open, reopen, rescue and the answers), one that is too short is 4. Words behind those of a
 * state or of an answer are not looked at, and stay.
 *
 * No call keeps anything of its own from one call to the next, so calls may run in several threads at once.
 *
 * What the caller owes, since no call can see it:
 *
 *  - Each pointer is that of as many elements as the length behind it says, aligned for their type, and they
 *    stay valid during the call. A length may be 0, and then the pointer is not followed, but it must not be null.
 *    A pointer without a length is that of one element.
 *  - What is lent for writing overlaps nothing else that the same call is lent, and no other thread uses it
 *    during the call. What is lent for reading is not written during the call.
 *  - The processor's floating point is as a program finds it: rounding to nearest, subnormals on. (Linking with
 *    -ffast-math can switch them off.)
 *  - There is enough stack. modelardb_macaque_v_grid and modelardb_table_range take 5 KiB for each 1,024 values, so
 *    up to 320 KiB; every other call takes less than 16 KiB.
 *  - A stream carries no checksum and not its own count: whoever keeps the bytes keeps the count beside them, and
 *    sees to it that neither is altered. Altered bytes can be refused, or can read as other values.
 */
#ifndef MODELARDB_H
#define MODELARDB_H

#include <stddef.h>
#include <stdint.h>

#ifdef __cplusplus
extern "C" {
#endif

/* The numbers: that a call was accepted, or why it was refused. */
#define MODELARDB_ACCEPTED 0
#define MODELARDB_BOUND_NOT_ALLOWED 1
#define MODELARDB_STATE_NOT_ALLOWED 2
#define MODELARDB_OVER_LIMIT 3            /* a number above its limit, or M below 1 */
#define MODELARDB_OUTPUT_TOO_SHORT 4      /* a lent output does not hold the answer */
#define MODELARDB_ENDS_EARLY 5            /* the stream ends before its last value */
#define MODELARDB_NO_WINDOW 6             /* a keep code before any window */
#define MODELARDB_WINDOW_NOT_ALLOWED 7    /* a window of no bits, or of more than 32 with its leading zeros */
#define MODELARDB_LEFTOVER 8              /* a set padding bit or a further byte */
#define MODELARDB_FORM_NOT_ALLOWED 9      /* parameter bytes or the residual count byte */
#define MODELARDB_TIMES_NOT_ALLOWED 10    /* timestamps out of limit, or not increasing */
#define MODELARDB_NO_MODEL 11             /* nothing fitted, or a line whose ends differ, at least one not finite */
#define MODELARDB_COUNTS_DISAGREE 12      /* counts or lengths that do not go together */
#define MODELARDB_TABLE_DOES_NOT_MATCH 13 /* a place table that is not the stream's */

/* What a call answers. With 5 to 7, `value` is the number of the value that was being read, counted from 0, and
 * `place` the bit at which its code begins, counted from the first of the stream. With 8, `value` is the count and
 * `place` the first set padding bit or, where none is set, the first bit of the first further byte. With every
 * other number both are 0.
 *
 * They say where reading could not go on. Bytes that were altered may have read as other values before that. */
typedef struct modelardb_fault {
  uint32_t number; /* MODELARDB_ACCEPTED or a refusal */
  uint32_t value;
  size_t place;
} modelardb_fault;

/* The kinds of a bound. A bound is its kind and the bits of its f32: an absolute one is finite and above 0, a
 * relative one (per cent) above 0 and at most 100, and Lossless does not look at the bits. Any other kind is
 * refused with 1. */
#define MODELARDB_LOSSLESS 0
#define MODELARDB_ABSOLUTE 1
#define MODELARDB_RELATIVE 2

/* The modes in which a stream opens: with its first value stored in full, where `opening` is not looked at, or
 * on the f32 whose bits are `opening`. Any other mode is refused with 3. */
#define MODELARDB_FIRST 0
#define MODELARDB_ON 1

/* The models of a segment; any other is refused with 3. */
#define MODELARDB_PMC_MEAN 0
#define MODELARDB_SWING 1

/* Limits, else 3: the values of a stream or of a call, the residuals of a segment, the metadata size M. */
#define MODELARDB_MOST_VALUES 65536
#define MODELARDB_MOST_RESIDUALS 255
#define MODELARDB_LEAST_METADATA 1
#define MODELARDB_MOST_METADATA 65535

/* Limits of a timestamp, else 10: from -2^52 to 2^52. */
#define MODELARDB_EARLIEST_TIME (-INT64_C(4503599627370496))
#define MODELARDB_LATEST_TIME INT64_C(4503599627370496)

/* The bits of the NaN that is answered, and of a least and a greatest value before any. */
#define MODELARDB_NAN 0x7FC00000

/* The f64 of an f32's value. */
uint64_t modelardb_widen(uint32_t bits);

/* The f32 nearest to an f64's value, a tie to the even one. */
uint32_t modelardb_narrow(uint64_t bits);

/* out[0]: 1 where the approximate value may stand for the real one, else 0: where the two are equal or both NaN, and else
 * by the bound, in f64, each number widened first: absolute |real - approximate| <= bound, relative
 * |(real - approximate) / real| * 100 <= bound, each operation rounded, in this order. What a write keeps passes this
 * test against its input. Refusals: 1; 4. */
modelardb_fault modelardb_is_value_within_error_bound(uint32_t kind, uint32_t bound, uint32_t real_value,
                                                      uint32_t approximate_value, uint32_t *out,
                                                      size_t out_length);

/* out[0]: the f64 by which a line may pass from the value. Refusals: 1; 4. */
modelardb_fault modelardb_maximum_allowed_deviation(uint32_t kind, uint32_t bound, uint64_t value, uint64_t *out,
                                                    size_t out_length);

/* ---- MacaqueV: a stream of values, each coded by how it differs from the last one that was kept
 * (exports_stream)
 *
 * The words of a writer's state: */
#define MODELARDB_WRITER_KIND 0       /* the bound's kind */
#define MODELARDB_WRITER_BOUND 1      /* the bits of its f32 */
#define MODELARDB_WRITER_LEAST 2      /* the bits of the least value kept, MODELARDB_NAN before any */
#define MODELARDB_WRITER_GREATEST 3   /* and of the greatest */
#define MODELARDB_WRITER_LAST 4       /* the bits of the last value kept; before any, of the one opened on, or 0 */
#define MODELARDB_WRITER_LEADING 5    /* the window's leading zero bits, 255 before any window */
#define MODELARDB_WRITER_TRAILING 6   /* its trailing zero bits, 0 before any window */
#define MODELARDB_WRITER_WITH_FIRST 7 /* 1 where the first value is stored in full, else 0 */
#define MODELARDB_WRITER_PLACE 8      /* the place: how many bits are written */
#define MODELARDB_WRITER_LENGTH 9     /* the length: how many values are written */
#define MODELARDB_WRITER_SUM 10       /* the bits of the f32 sum of the kept values, 0 before any */
#define MODELARDB_WRITER_WORDS 11
/*
 * A row may be used, else 2, if it has eleven words, words 2 to 6 and 10 have at most 32 bits each, word 7 is 0 or
 * 1, the place lies within the buffer, the length is at most 65,536 and is 0 exactly where the place is 0, and the
 * window is 255 and 0 or, at length 1 or more, has at most 31 zero bits in all. A bound in words of more than 32
 * bits is refused with 1, as any that is not allowed: a Lossless row's word 1 too, though its bits are not looked
 * at. `new`, `reopen` and `rescue` set that word to 0.
 *
 * The sum is what `modelardb_macaque_v_sum` answers on the stream's bytes, in f32 from the left, without reading
 * them: with a first value the write at length 0 sets it to that value, else it begins at +0. The mean is the sum
 * divided by word 9, in double; where word 9 is 0 there is none (examples/stream.c). Once a NaN is kept the sum is
 * MODELARDB_NAN to the end of the stream, and beyond the greatest f32 it is an infinity.
 *
 * Rows of the version before had ten words. Do not lengthen one: with any eleventh word of 32 bits it is accepted,
 * and its sum is wrong. Reopen its stream into a new row: used is MODELARDB_BYTES(word 8), count and k are word 9,
 * the mode is MODELARDB_FIRST where word 7 is 1, else MODELARDB_ON with the opening value that you kept.
 *
 * The stream's bytes are the buffer's first (word 8 + 7) / 8, and the bits behind the place in the last of them
 * are 0. A value that is stored in full takes 32 bits, and the code of any other at most 45. Of what a writer writes
 * one code alone can be so long: the window that it sets is never replaced, and later codes take at most 33.
 */
#define MODELARDB_LONGEST_CODE 45
#define MODELARDB_OPENING_LEADING 255
#define MODELARDB_OPENING_TRAILING 0

/* How many bytes have room for what a fresh writer makes of so many values, in either mode, where the length of an
 * array has to be constant (modelardb_macaque_v_most_bytes says just how many); and how many bytes so many bits
 * take. An earlier version had LONGEST_CODE bits for each value in ROOM, by the name of MODELARDB_MOST_BITS: now it
 * is shorter, and behind a stream that another program wrote it need not be enough. */
#define MODELARDB_ROOM(values) (((size_t)(values) * (MODELARDB_LONGEST_CODE - 1) + 8) / 8)
#define MODELARDB_BYTES(place) (((place) + 7) / 8)

/* *bits: how many bits a fresh writer writes at most for `count` values, whatever they are and whatever the bound,
 * in one write or in several, also where it is reopened in between, with another bound too. In MODELARDB_ON that is
 * 44 * count + 1; in MODELARDB_FIRST 32 for a count of 1, and 32 + 44 * (count - 1) + 1 above that; in both 0 for a
 * count of 0. For each count there are values that take just as many, Lossless. Ask for all values of a stream at
 * once: what is asked for parts of it need not add up to enough.
 *
 * A stream that another program wrote may be larger. To write m more values behind any stream, a buffer of
 * MODELARDB_BYTES(word 8 + *bits) bytes is enough, with *bits of a count of m in MODELARDB_ON. Refusals: 3 (mode, or
 * count above 65,536). */
modelardb_fault modelardb_macaque_v_most_bits(size_t count, uint32_t mode, size_t *bits);

/* *bytes: how many bytes that is, (bits + 7) / 8. In a buffer of so many a fresh writer is never refused `count`
 * values with 4 for its buffer. Refusals: 3 (mode, or count above 65,536). */
modelardb_fault modelardb_macaque_v_most_bytes(size_t count, uint32_t mode, size_t *bytes);

/* state: a writer before any value. Refusals: 1; 3 (mode); 4 (a row under eleven words). */
modelardb_fault modelardb_macaque_v_new(uint32_t kind, uint32_t bound, uint32_t mode, uint32_t opening,
                                        uint64_t *state, size_t state_length);

/* Writes the values behind the state's place into the buffer; state: words 2 to 6 and 8 to 10 become those of the
 * writer after them, and the others stay. A write of no values changes nothing. Of a sum that is handed in only its
 * 32 bits are judged: a wrong one is carried on by the same additions, and nothing else depends on it. Refusals: 1;
 * 2; 3 (over 65,536 values in all); 4 (the buffer). */
modelardb_fault modelardb_macaque_v_compress_values(uint64_t *state, size_t state_length, const uint32_t *values,
                                                    size_t values_length, uint8_t *buffer, size_t buffer_length);

/* state: the writer behind the first k of the `count` values of the stream in the buffer's first `used`
 * bytes, which is checked whole. The bits behind them in the byte that they end in become 0. Refusals: 1; 3
 * (mode, or count above 65,536); 12 (k above count, or used above the buffer's length); 4 (a row under eleven
 * words); then 5 to 8 with value and place, whatever k is. */
modelardb_fault modelardb_macaque_v_reopen(uint8_t *buffer, size_t buffer_length, size_t used, size_t count,
                                           size_t k, uint32_t mode, uint32_t opening, uint32_t kind,
                                           uint32_t bound, uint64_t *state, size_t state_length);

/* state: the writer behind whatever arrived of a stream, to go on from there. Of the buffer's first `used` bytes it
 * keeps the values whose bits are all there, up to `limit` of them, and word 9 says how many it kept. The bits behind
 * them in the byte that they end in become 0, and no other byte changes. A value that is cut, stale bits and further
 * bytes behind them are no refusal: there is no 5 and no 8.
 *
 * used is how many bytes arrived, not the buffer's length: zeros behind them may be read as values. Give as the
 * limit how many values the bytes that were sent hold: then what is kept of a stream that was cut at any byte are the
 * values that arrived whole, and the row is that of the writer behind them. Where a value is missing, every limit from the
 * number kept on answers the same. Where none is, a larger one may take padding for a value, or for damage: on 1.0,
 * FE 0C is one value, and with a limit above 1 two; 80 is one repeat, and with a limit above 1 refused with 6. Bytes
 * that are missing in between, or altered, are seen only where 6 or 7 says so: compare a checksum of what arrived
 * first. Refusals: 1; 3 (mode, or limit above 65,536); 12 (used above the buffer's length); 4 (a row under eleven
 * words); then 6 and 7 with value and place: damage, or a limit above the count. */
modelardb_fault modelardb_macaque_v_rescue(uint8_t *buffer, size_t buffer_length, size_t used, size_t limit,
                                           uint32_t mode, uint32_t opening, uint32_t kind, uint32_t bound,
                                           uint64_t *state, size_t state_length);

/* out[0] to out[count - 1]: the values of the stream. Refusals: 3 (mode, or count above 65,536); 4; then 5 to 8
 * with value and place. */
modelardb_fault modelardb_macaque_v_grid(const uint8_t *bytes, size_t bytes_length, size_t count, uint32_t mode,
                                         uint32_t opening, uint32_t *out, size_t out_length);

/* out[0]: the f32 sum of the values of the stream. Refusals: 3 (mode, or count above 65,536); 4; then 5 to 8
 * with value and place. */
modelardb_fault modelardb_macaque_v_sum(const uint8_t *bytes, size_t bytes_length, size_t count, uint32_t mode,
                                        uint32_t opening, uint32_t *out, size_t out_length);

/* ---- PMC-Mean: one value for a run of values, as long as it is within the bound of the least and the greatest
 * (exports_fit)
 *
 * The words of a state: */
#define MODELARDB_PMC_MEAN_KIND 0     /* the bound's kind */
#define MODELARDB_PMC_MEAN_BOUND 1    /* the bits of its f32 */
#define MODELARDB_PMC_MEAN_LEAST 2    /* the bits of the f32 of the least value, MODELARDB_NAN before any */
#define MODELARDB_PMC_MEAN_GREATEST 3 /* and of the greatest */
#define MODELARDB_PMC_MEAN_SUM 4      /* the bits of the f64 sum of the values */
#define MODELARDB_PMC_MEAN_LENGTH 5   /* the length: how many values the model stands for */
#define MODELARDB_PMC_MEAN_FITS 6     /* set to 0 by `new`, and by a step to 1 where the value fitted, else 0 */
#define MODELARDB_PMC_MEAN_WORDS 7
/*
 * A row may be used, else 2, if it has seven words, words 2 and 3 have at most 32 bits and the length is at most
 * 65,536. A bound in words of more than 32 bits is refused with 1, as any that is not allowed, a Lossless one too.
 * Word 6 is never looked at. A step writes all seven words anew, also where the value does not fit: a NaN as
 * 7FC00000 or 7FF8000000000000, the bits of a Lossless bound as 0.
 */

/* state: PMC-Mean before any value. Refusals: 1; 4. */
modelardb_fault modelardb_pmc_mean_new(uint32_t kind, uint32_t bound, uint64_t *state, size_t state_length);

/* Tries one more value, the f32 of these bits. state: the model with it and 1 in word 6, or, where it does not
 * fit, the same model and 0 in word 6. Refusals: 1; 2; 3 (a model of 65,536 values). */
modelardb_fault modelardb_pmc_mean_fit_value(uint64_t *state, size_t state_length, uint32_t value);

/* out[0]: the f32 bytes for each value, with metadata of m bytes. Refusals: 1; 2; 3 (m); 4 (out); 11. */
modelardb_fault modelardb_pmc_mean_bytes_per_value(const uint64_t *state, size_t state_length, size_t m,
                                                   uint32_t *out, size_t out_length);

/* out[0]: the f32 that stands for the values. Refusals: 1; 2; 4 (out); 11. */
modelardb_fault modelardb_pmc_mean_model(const uint64_t *state, size_t state_length, uint32_t *out,
                                         size_t out_length);

/* out[0]: the f32 sum of `count` such values. Refusals: 3 (count above 65,536); 4. */
modelardb_fault modelardb_pmc_mean_sum(size_t count, uint32_t value, uint32_t *out, size_t out_length);

/* out[0] to out[count - 1]: the value. Refusals: 3 (count above 65,536); 4. */
modelardb_fault modelardb_pmc_mean_grid(uint32_t value, size_t count, uint32_t *out, size_t out_length);

/* ---- Swing: a line from the first point of a run on that passes each later one within the bound (exports_fit)
 *
 * Timestamps lie within their limits and increase strictly, else 10. The words of a state: */
#define MODELARDB_SWING_KIND 0            /* the bound's kind */
#define MODELARDB_SWING_BOUND 1           /* the bits of its f32 */
#define MODELARDB_SWING_START_TIME 2      /* the first time, in two's complement */
#define MODELARDB_SWING_END_TIME 3        /* the last time */
#define MODELARDB_SWING_FIRST_VALUE 4     /* the bits of the f64 of the first value */
#define MODELARDB_SWING_UPPER_SLOPE 5     /* the f64 slope of the upper line */
#define MODELARDB_SWING_UPPER_INTERCEPT 6 /* its f64 intercept */
#define MODELARDB_SWING_LOWER_SLOPE 7     /* the f64 slope of the lower line */
#define MODELARDB_SWING_LOWER_INTERCEPT 8 /* its f64 intercept */
#define MODELARDB_SWING_NUMERATOR 9       /* the f64 numerator of the slope with the least error */
#define MODELARDB_SWING_DENOMINATOR 10    /* its f64 denominator */
#define MODELARDB_SWING_LENGTH 11         /* the length: how many points the model stands for */
#define MODELARDB_SWING_FITS 12           /* set to 0 by `new`, and by a step to 1 where the point fitted, else 0 */
#define MODELARDB_SWING_WORDS 13
/*
 * A row may be used, else 2, if it has thirteen words, the length is at most 65,536 and, at length 1, the times
 * are equal, at length 2 or more, the first is before the last, both within the limits. The bound and word 12 are
 * as with PMC-Mean, and so are the words that a step writes.
 */

/* state: Swing before any point. Refusals: 1; 4. */
modelardb_fault modelardb_swing_new(uint32_t kind, uint32_t bound, uint64_t *state, size_t state_length);

/* Tries one more point. state: the model with it and 1 in word 12, or, where it does not fit, the same model and
 * 0 in word 12. Refusals: 1; 2; 3 (a model of 65,536 points); 10. */
modelardb_fault modelardb_swing_fit_data_point(uint64_t *state, size_t state_length, int64_t timestamp,
                                               uint32_t value);

/* out[0]: the f32 bytes for each value, with metadata of m bytes and one byte more. Refusals: 1; 2; 3 (m); 4
 * (out); 11. */
modelardb_fault modelardb_swing_bytes_per_value(const uint64_t *state, size_t state_length, size_t m,
                                                uint32_t *out, size_t out_length);

/* out[0], out[1]: the f32 of the line's first and of its last value. Refusals: 1; 2; 4 (out); 11. */
modelardb_fault modelardb_swing_model(const uint64_t *state, size_t state_length, uint32_t *out,
                                      size_t out_length);

/* The line through (start_time, first_value) and (end_time, last_value), two f32: its values' f32 sum into out[0],
 * by the average of its ends for `count` values. Refusals: 3 (count above 65,536); 4; 10; 11. */
modelardb_fault modelardb_swing_sum_by_average(int64_t start_time, int64_t end_time, uint32_t first_value,
                                               uint32_t last_value, size_t count, uint32_t *out,
                                               size_t out_length);

/* The same, by adding up its values at the timestamps. Refusals: 3 (over 65,536 timestamps); 4; 10; 11. */
modelardb_fault modelardb_swing_sum_over(int64_t start_time, int64_t end_time, uint32_t first_value,
                                         uint32_t last_value, const int64_t *timestamps, size_t timestamps_length,
                                         uint32_t *out, size_t out_length);

/* out[0] on: the line's value at each timestamp. Refusals: 3 (over 65,536 timestamps); 4; 10; 11. */
modelardb_fault modelardb_swing_grid(int64_t start_time, int64_t end_time, uint32_t first_value,
                                     uint32_t last_value, const int64_t *timestamps, size_t timestamps_length,
                                     uint32_t *out, size_t out_length);

/* ---- the choice between the two (exports_choice)
 *
 * A builder's words are those of a PMC-Mean state, then those of a Swing state. The last word of each is part of
 * it: 1 where the model stands for all points so far, 0 where it has failed and is not tried again. */
#define MODELARDB_BUILDER_PMC_MEAN 0       /* the first word of the PMC-Mean state */
#define MODELARDB_BUILDER_PMC_MEAN_FITS 6  /* its last */
#define MODELARDB_BUILDER_SWING 7          /* the first word of the Swing state */
#define MODELARDB_BUILDER_SWING_FITS 19    /* its last */
#define MODELARDB_BUILDER_WORDS 20
/*
 * `new` sets words 6 and 19 to 1. The rows of modelardb_pmc_mean_new and modelardb_swing_new have 0 there, so put
 * together they make a builder of which both models have failed. With any other word there neither counts as
 * failed, and the row is refused with 1 or 2. A step fits where one of the two is 1 after it.
 *
 * A model that has failed causes no refusal of a step: its words are not judged. A step writes them back all the
 * same, as a step of the model alone does; besides, a bound of any other kind, or in words of more than 32 bits,
 * becomes kind 1 and 7FC00000, and of a word 2 or 3 of more than 32 bits the lower 32 are written, with a PMC-Mean
 * length of 65,537. The choice judges both models, failed or not.
 *
 * The words of the model that is chosen: */
#define MODELARDB_CHOSEN_MODEL 0           /* MODELARDB_PMC_MEAN or MODELARDB_SWING */
#define MODELARDB_CHOSEN_LENGTH 1          /* how many values it stands for */
#define MODELARDB_CHOSEN_FIRST_VALUE 2     /* the bits of its first value */
#define MODELARDB_CHOSEN_LAST_VALUE 3      /* and of its last, which for PMC-Mean is the same */
#define MODELARDB_CHOSEN_BYTES_PER_VALUE 4 /* the bits of its f32 bytes for each value; the choice is not by these */
#define MODELARDB_CHOSEN_WORDS 5

/* state: a builder before any point. Refusals: 1; 4. */
modelardb_fault modelardb_model_builder_new(uint32_t kind, uint32_t bound, uint64_t *state, size_t state_length);

/* Tries one more point with each model that has not failed. state: the builder after it. Refusals: 1; 2; 3 (a
 * model of 65,536 points); 10. */
modelardb_fault modelardb_model_builder_try_to_update_models(uint64_t *state, size_t state_length,
                                                             int64_t timestamp, uint32_t value);

/* out[0] to out[4]: the model that needs fewer bytes for each value, with metadata of m bytes: Swing where
 * (m + 1) * PMC-Mean's length is less than m * Swing's, else PMC-Mean; and PMC-Mean also where Swing's first value
 * is finite and its last is not. Refusals: 1; 2; 3 (m); 4 (out); 11 (a model of length 0). */
modelardb_fault modelardb_model_builder_finish(const uint64_t *state, size_t state_length, size_t m, uint64_t *out,
                                               size_t out_length);

/* out[0] to out[4]: the model chosen, as modelardb_model_builder_finish does, for the points from the first one on,
 * each model fitted until it fails. Refusals: 1; 3 (over 65,536 values, or m); 12 (unequal lengths); 4; 10 (all
 * timestamps are judged); 11 (no values). */
modelardb_fault modelardb_choose_model(const int64_t *timestamps, size_t timestamps_length, const uint32_t *values,
                                       size_t values_length, uint32_t kind, uint32_t bound, size_t m,
                                       uint64_t *out, size_t out_length);

/* ---- parameter bytes and segments (exports_segments)
 *
 * A segment stores of its model its least and its greatest value, parameter bytes, and residual bytes: the
 * values that follow the model's, as a stream that opens on the model's last value, then one byte that
 * counts them, 1 to 255. No residuals, no byte. PMC-Mean's first value is its only one. Values, the least and the
 * greatest are bits of an f32.
 *
 * Lossless, the residuals come back bit for bit. A model's own values are computed: they are what an average or a
 * line draws, and nothing is promised of their last bits.
 *
 * Parameter bytes are 0, 1 or 4 of PMC-Mean's, and 0, 1, 5 or 8 of Swing's. Residual bytes that are written are at
 * most those of 255 values without a first one, and the byte that counts them. Those that another program wrote may
 * be 1,436, MODELARDB_BYTES(255 * MODELARDB_LONGEST_CODE) + 1, and are read too. */
#define MODELARDB_MOST_PARAMETER_BYTES 8
#define MODELARDB_MOST_RESIDUAL_BYTES 1404

/* The words of a segment that was written: */
#define MODELARDB_SEGMENT_LEAST 0           /* the bits of the least value */
#define MODELARDB_SEGMENT_GREATEST 1        /* and of the greatest */
#define MODELARDB_SEGMENT_PARAMETER_BYTES 2 /* how many parameter bytes there are */
#define MODELARDB_SEGMENT_RESIDUAL_BYTES 3  /* how many residual bytes there are */
#define MODELARDB_SEGMENT_WORDS 4

/* out: PMC-Mean's parameter bytes; row[0]: how many they are. The residuals' least and greatest value are
 * both 7FC00000 where there are none. Refusals: 4 (an empty row, or out). */
modelardb_fault modelardb_encode_values_for_pmc_mean(uint32_t value, uint32_t residuals_min_value,
                                                     uint32_t residuals_max_value, uint8_t *out, size_t out_length,
                                                     uint64_t *row, size_t row_length);

/* out: Swing's parameter bytes; row[0]: how many they are. Refusals: 4 (an empty row, or out). */
modelardb_fault modelardb_encode_values_for_swing(uint32_t first_value, uint32_t last_value,
                                                  uint32_t residuals_min_value, uint32_t residuals_max_value,
                                                  uint8_t *out, size_t out_length, uint64_t *row,
                                                  size_t row_length);

/* out[0]: the value that PMC-Mean's parameter bytes give with the segment's least and greatest value.
 * Refusals: 4; 9. */
modelardb_fault modelardb_decode_values_for_pmc_mean(uint32_t min_value, uint32_t max_value, const uint8_t *values,
                                                     size_t values_length, uint32_t *out, size_t out_length);

/* out[0] and out[1]: the first and the last value that Swing's parameter bytes give with the segment's least
 * and greatest value. Refusals: 4; 9. */
modelardb_fault modelardb_decode_values_for_swing(uint32_t min_value, uint32_t max_value, const uint8_t *values,
                                                  size_t values_length, uint32_t *out, size_t out_length);

/* values_out: the parameter bytes; residuals_out: the residual bytes; segment: the words above. The bound is the
 * residuals'. Refusals: 1; 3 (model, or over 255 residuals); 4 (a row under four words, or either output). */
modelardb_fault modelardb_segment_write(uint32_t model, uint32_t first_value, uint32_t last_value, uint32_t kind,
                                        uint32_t bound, const uint32_t *residuals, size_t residuals_length,
                                        uint8_t *values_out, size_t values_out_length, uint8_t *residuals_out,
                                        size_t residuals_out_length, uint64_t *segment, size_t segment_length);

/* The reading calls take all timestamps of a segment: the model owns the first ones, the residuals as many of
 * the last as their count byte says. Their refusals: 3 (model, or over 65,536 timestamps); 12 (no timestamp left
 * for the model); 4; 10 (a timestamp, or Swing with one only); 9 (the parameter bytes, or a count byte of 0); 11;
 * then 5 to 8 of the residual stream: value 0 is the first residual, and places count from that stream's first
 * byte. */

/* out[0] to out[timestamps_length - 1]: the values, the model's and then the residuals'. */
modelardb_fault modelardb_segment_grid(uint32_t model, const int64_t *timestamps, size_t timestamps_length,
                                       uint32_t min_value, uint32_t max_value, const uint8_t *values,
                                       size_t values_length, const uint8_t *residuals, size_t residuals_length,
                                       uint32_t *out, size_t out_length);

/* out[0]: the f32 sum of the values, of Swing's by the average of its ends. */
modelardb_fault modelardb_segment_sum_by_average(uint32_t model, const int64_t *timestamps,
                                                 size_t timestamps_length, uint32_t min_value, uint32_t max_value,
                                                 const uint8_t *values, size_t values_length,
                                                 const uint8_t *residuals, size_t residuals_length, uint32_t *out,
                                                 size_t out_length);

/* out[0]: the f32 sum of the values, of Swing's one by one at its timestamps. */
modelardb_fault modelardb_segment_sum_over(uint32_t model, const int64_t *timestamps, size_t timestamps_length,
                                           uint32_t min_value, uint32_t max_value, const uint8_t *values,
                                           size_t values_length, const uint8_t *residuals, size_t residuals_length,
                                           uint32_t *out, size_t out_length);

/* ---- a reader: a stream's values, one by one (exports_reader)
 *
 * The caller decides how many values to read, and the end call judges what follows them. The stream's bytes are
 * handed to each call; where the reader stands in them is a row, in the order of a writer's: */
#define MODELARDB_READER_LAST 0       /* the bits of the last value read; before any, of the one opened on, or 0 */
#define MODELARDB_READER_LEADING 1    /* the window's leading zero bits, 255 before any window */
#define MODELARDB_READER_TRAILING 2   /* its trailing zero bits, 0 before any window */
#define MODELARDB_READER_WITH_FIRST 3 /* 1 where the first value is stored in full, else 0 */
#define MODELARDB_READER_PLACE 4      /* the place: how many bits are read */
#define MODELARDB_READER_LENGTH 5     /* the length: how many values are read */
#define MODELARDB_READER_WORDS 6
/*
 * A row may be used, else 2, if it has six words, words 0 to 2 have at most 32 bits each, word 3 is 0 or 1, the
 * place lies within the bytes, the length is at most 65,536 and is 0 exactly where the place is 0, and the window
 * is 255 and 0 or, at length 1 or more, has at most 31 zero bits in all. It holds no bound.
 *
 * To see where two streams part: modelardb_reader_last_value says of each whether it is right; then open a reader on
 * each, and compare what the nexts put into out[0], as many of each as its count says. The program `compare` does
 * that with two files.
 */

/* reader: before the first value of a stream, which opens by a mode and a value as a writer does. Refusals: 3
 * (mode); 4 (a row under six words). */
modelardb_fault modelardb_reader_open(uint32_t mode, uint32_t opening, uint64_t *reader, size_t reader_length);

/* out[0]: the next value; reader: behind it. Refusals: 2; 3 (at 65,536 values); 4 (out); then 5 to 7, whose value
 * and place are the reader's length and place. */
modelardb_fault modelardb_reader_next(const uint8_t *bytes, size_t bytes_length, uint64_t *reader,
                                      size_t reader_length, uint32_t *out, size_t out_length);

/* Accepted where the stream ends behind the values read. Refusals: 2; 8, whose value is the reader's length and
 * whose place is that of the first leftover bit. */
modelardb_fault modelardb_reader_end(const uint8_t *bytes, size_t bytes_length, const uint64_t *reader,
                                     size_t reader_length);

/* out[0]: the last of a stream's values, `count` of them; +0 for a count of 0, whatever the stream opens on.
 * Refusals: 3 (mode, or count above 65,536); 4; then 5 to 8 with value and place. */
modelardb_fault modelardb_reader_last_value(const uint8_t *bytes, size_t bytes_length, size_t count, uint32_t mode,
                                            uint32_t opening, uint32_t *out, size_t out_length);

/* ---- the place table: where reading can begin inside a stream, to read a range of it alone (exports_table; the
 * write in exports_stream)
 *
 * A table has an entry for each value whose number, counted from 0, is a multiple of 64 and below the count. An
 * entry is four words, each as it is before that value; those of value n begin at word 4 * (n / 64): */
#define MODELARDB_ENTRY_PLACE 0    /* the place: the bit at which the value's code begins */
#define MODELARDB_ENTRY_LAST 1     /* the bits of the last value kept; before any, of the one opened on, or 0 */
#define MODELARDB_ENTRY_LEADING 2  /* the window's leading zero bits, 255 before any window */
#define MODELARDB_ENTRY_TRAILING 3 /* its trailing zero bits, 0 before any window */
#define MODELARDB_ENTRY_WORDS 4
#define MODELARDB_VALUES_PER_ENTRY 64
/*
 * How many entries are in use stands beside the words: none before any value, and MODELARDB_ENTRIES(count) for
 * `count` values. Words behind those in use are not looked at. Of a table lent, as many entries count as it holds
 * whole; more in use than that are refused with 12, but in a rescue, which makes them anew, and in a range with p = q,
 * which looks at no table.
 *
 * Keep the table beside the bytes and their count. It carries no checksum either: write and reopen count its
 * entries and look at none, so that wrong ones are carried on, and a range looks at one and trusts it: by a wrong
 * one it can read other values, or be refused with 5 to 7 where the stream is right.
 * modelardb_table_check says whether a table is the stream's own. Of one that is, every range reads as
 * modelardb_macaque_v_grid does.
 */

/* How many entries, and how many words, so many values have. */
#define MODELARDB_ENTRIES(values) \
  (((size_t)(values) + MODELARDB_VALUES_PER_ENTRY - 1) / MODELARDB_VALUES_PER_ENTRY)
#define MODELARDB_TABLE_ROOM(values) (MODELARDB_ENTRIES(values) * MODELARDB_ENTRY_WORDS)

/* Writes as modelardb_macaque_v_compress_values does. table: behind the entries in use stand those of the new
 * values, and no other word changes; *entries: how many are in use then. Refusals: 1; 2; 3 (over 65,536 values in
 * all); 12 (entries); 13 (not as many entries in use as the state's length asks for); 4 (the table, or the
 * buffer). */
modelardb_fault modelardb_table_compress_values(uint64_t *state, size_t state_length, const uint32_t *values,
                                                size_t values_length, uint8_t *buffer, size_t buffer_length,
                                                uint64_t *table, size_t table_length, size_t *entries);

/* Reopens as modelardb_macaque_v_reopen does. *entries: how many stay in use, those of the values before k. No
 * word of the table is looked at. Refusals: 1; 3 (mode, or count above 65,536); 12 (k above count, used above the
 * buffer's length, or entries); 13 (not as many entries in use as the count asks for); 4 (a row under eleven words);
 * then 5 to 8 with value and place, whatever k is. */
modelardb_fault modelardb_table_reopen(uint8_t *buffer, size_t buffer_length, size_t used, size_t count, size_t k,
                                       uint32_t mode, uint32_t opening, uint32_t kind, uint32_t bound,
                                       uint64_t *state, size_t state_length, const uint64_t *table,
                                       size_t table_length, size_t *entries);

/* Rescues as modelardb_macaque_v_rescue does, and makes the table anew. Neither its words nor *entries are looked at:
 * its first words become the entries of the values that are kept, the words behind them stay, and *entries is how many
 * they are. Of a stream that is whole and known to be right, with its count as the limit, it is how to make a table
 * that is missing. The table of an altered stream goes with it, and then no check sees what was altered. Refusals: 1;
 * 3 (mode, or limit above 65,536); 12 (used above the buffer's length); 4 (a row under eleven words, or a table of
 * fewer words than MODELARDB_TABLE_ROOM(limit), whatever arrived); then 6 and 7 with value and place. */
modelardb_fault modelardb_table_rescue(uint8_t *buffer, size_t buffer_length, size_t used, size_t limit,
                                       uint32_t mode, uint32_t opening, uint32_t kind, uint32_t bound,
                                       uint64_t *state, size_t state_length, uint64_t *table, size_t table_length,
                                       size_t *entries);

/* Accepted where the entries in use are those of the stream, which is read once. Refusals: 3 (mode, or count above
 * 65,536); 12 (entries); 13 (not as many entries in use as the count asks for); then 5 to 8 with value and place;
 * then 13 again (an entry is not the stream's). */
modelardb_fault modelardb_table_check(const uint8_t *bytes, size_t bytes_length, size_t count, uint32_t mode,
                                      uint32_t opening, const uint64_t *table, size_t table_length,
                                      size_t entries);

/* out[0] to out[q - p - 1]: the values p to q - 1 of the stream, counted from 0. It reads from the entry at or
 * before p on, so at most 63 values more, and none behind them; of how the stream opens it looks at the mode alone.
 * Where p is q there are no values, and neither the table nor out is looked at. Refusals: 3 (mode, or count above
 * 65,536); 12 (p above q, q above count, or entries); 13 (that entry is not in use, its place is above
 * 8 * bytes_length, its last value has more than 32 bits, or its window is neither 255 and 0 nor of at most 31
 * zero bits in all); 4 (out); then 5 to 7 of what is read, value and place counted from the stream's first. */
modelardb_fault modelardb_table_range(const uint8_t *bytes, size_t bytes_length, size_t count, uint32_t mode,
                                      uint32_t opening, const uint64_t *table, size_t table_length, size_t entries,
                                      size_t p, size_t q, uint32_t *out, size_t out_length);

#ifdef __cplusplus
}
#endif

#endif
