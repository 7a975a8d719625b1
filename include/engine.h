/* The engine with C linkage. Link target/staticlib/libcapi.a, which `tools/build capi` writes.

   A slice is a pointer to its first number and a count of numbers. The pointer is never null, also
   where the count is 0, and what is written to overlaps no other argument. A matrix stands row by
   row; rows and columns count from 0. No function keeps a pointer, allocates or fails otherwise
   than its number says, and each has an answer for all values of its arguments. */

#ifndef ENGINE_H
#define ENGINE_H

#include <stddef.h>
#include <stdint.h>

#ifdef __cplusplus
extern "C" {
#endif

/* ---- The five calls (document 01)

   `returns` has `assets` columns and `periods` rows. `answer` receives the first assets * assets
   numbers (the covariance) or assets numbers (the means); its later numbers keep their value. A
   call that refuses writes nothing to it.

   Each returns 0 where it accepts, and writes
       numbers: the intensity (0 if none); the target (James-Stein and Bayes-Stein, else 0)
       wholes:  the sweeps and the rotations of the decomposition (0 if none)
   else the number of the refusal, with what comes with it; the rest of numbers and wholes is 0:

    1  assets or given side 0
    2  over 24 assets or side, or over 4,096 periods
    3  fewer than 2 periods                            wholes[0]: the periods
    4  returns_len is not periods * assets, or answer_len too small
    5  an entry is NaN or infinite                     wholes: the first row and column
    6  the sample or adjusted covariance is not finite
    7  a bad setting                                   wholes[0]: 1 regularization, 2 shrinkage,
                                                       3 half-life, 4 threshold, 5 sweep limit,
                                                       6 decay factor
    8  Ledoit-Wolf with another estimate than the sample
    9  a variance of 0, up to rounding                 wholes[0]: the first column
   10  given_len is not side * side, or side not assets  wholes[0]: the side
   11  the given matrix is not symmetric               wholes: the first row and column
   12  the given matrix has a negative eigenvalue      numbers[0]: that value
   13  the given matrix is not decomposed: too few sweeps, or its average with its transpose is
       not finite
   14  trace 0; a mean's decomposition fails, or its correlation is not finite or singular
  100  a number that stands for no kind: this interface only, before all other causes

   (15 is a file that is no question, 16 is refused by the call on prices alone, 17 and 18 by the writer
   of question files.) */

enum engine_estimate {
    ENGINE_SAMPLE = 0,
    ENGINE_GIVEN = 1,
    ENGINE_WEIGHTED = 2,          /* estimate_value: the half-life, in periods */
    ENGINE_SEMI = 3,              /* below each asset's mean */
    ENGINE_SEMI_BELOW = 4,        /* estimate_value: the threshold */
    ENGINE_WEIGHTED_BY_FACTOR = 5 /* estimate_value: the decay factor, above 0 and below 1 */
};

enum engine_shrinkage {
    ENGINE_UNSHRUNK = 0,
    ENGINE_FIXED = 1, /* shrinkage_value: the intensity */
    ENGINE_LEDOIT_WOLF_VARIANCE = 2,
    ENGINE_LEDOIT_WOLF_CORRELATION = 3
};

enum engine_regularization {
    ENGINE_UNREGULARIZED = 0,
    ENGINE_RIDGE = 1 /* regularization_value: what is added to each variance */
};

enum engine_target {
    ENGINE_CONSTANT_VARIANCE = 0,
    ENGINE_CONSTANT_CORRELATION = 1
};

/* A value that its kind does not have is not read, nor are `limit`, `given` and `side` for another
   estimate than ENGINE_GIVEN. */
uint32_t engine_adjusted_covariance(
    const double *returns, size_t returns_len, size_t assets, size_t periods,
    uint32_t estimate, double estimate_value,
    uint32_t shrinkage, double shrinkage_value,
    uint32_t regularization, double regularization_value,
    size_t limit, const double *given, size_t given_len, size_t side,
    double *answer, size_t answer_len, double numbers[2], size_t wholes[2]);

/* The intensity only. */
uint32_t engine_ledoit_wolf(
    const double *returns, size_t returns_len, size_t assets, size_t periods,
    uint32_t target, double numbers[2], size_t wholes[2]);

uint32_t engine_weighted_mean(
    const double *returns, size_t returns_len, size_t assets, size_t periods,
    double half_life,
    double *answer, size_t answer_len, double numbers[2], size_t wholes[2]);

/* A period's weight is factor times that of the next period, so it lies above 0 and below 1. */
uint32_t engine_weighted_mean_by_factor(
    const double *returns, size_t returns_len, size_t assets, size_t periods,
    double factor,
    double *answer, size_t answer_len, double numbers[2], size_t wholes[2]);

uint32_t engine_james_stein_mean(
    const double *returns, size_t returns_len, size_t assets, size_t periods,
    size_t limit,
    double *answer, size_t answer_len, double numbers[2], size_t wholes[2]);

uint32_t engine_bayes_stein_mean(
    const double *returns, size_t returns_len, size_t assets, size_t periods,
    size_t limit,
    double *answer, size_t answer_len, double numbers[2], size_t wholes[2]);

/* ---- Returns from prices (document 02, 'Questions in prices')

   `prices` has `assets` columns and `rows` rows, one more than the returns. `returns` receives the
   first (rows - 1) * assets numbers: each price over the one in the row before, minus 1, rounded
   twice. Its later numbers keep their value; a call that refuses writes nothing to it. Returns 0
   where it accepts, with all of numbers and wholes 0, else the number of the first refusal of these:

    1  no assets
    2  over 24 assets, or over 4,097 rows
    3  fewer than 3 rows                               wholes[0]: the rows
    4  prices_len is not rows * assets, or returns_len is less than (rows - 1) * assets
    5  a price is NaN or infinite                      wholes: the first row and column
   16  a price is zero or negative                     wholes: the first row and column
    5  a return is infinite                            wholes: its row among the returns, its column */

uint32_t engine_returns_from_prices(
    const double *prices, size_t prices_len, size_t assets, size_t rows,
    double *returns, size_t returns_len, double numbers[2], size_t wholes[2]);

/* ---- Question files (document 02, 'Question authors write files')

   A question record in numbers: assets and periods; a kind each for the estimate, the shrinkage and
   the regularization, as in the enums above, with the 64 bits of its float beside it, so that every NaN
   comes back as it was; whether there is a sweep limit, and the limit; the question. `returns` and
   `given` have the bits of the returns, periods * assets, and of the given entries, assets * assets for
   ENGINE_GIVEN and none for another estimate. Bits and a limit that a kind does not have are not read. */

enum engine_question {
    ENGINE_COVARIANCE = 0,
    ENGINE_WEIGHTED_MEAN = 1,
    ENGINE_JAMES_STEIN = 2,
    ENGINE_BAYES_STEIN = 3
};

/* Writes the file of a question to the front of `out`; the bytes behind it keep their value. Returns 0
   with the bytes written in wholes[0]; else, with all of numbers and wholes 0 and `out` as it was,

   17  the record breaks a rule of the format, or has a given matrix of 0 assets
   18  out_len is less than the file's length; 9,849 bytes are always enough
  100  a number that stands for no kind or no question, or a has_limit above 1; before all other causes */

uint32_t engine_write_question(
    size_t assets, size_t periods, const uint64_t *returns, size_t returns_len,
    uint32_t estimate, uint64_t estimate_bits,
    uint32_t shrinkage, uint64_t shrinkage_bits,
    uint32_t regularization, uint64_t regularization_bits,
    const uint64_t *given, size_t given_len,
    uint32_t has_limit, size_t limit, uint32_t question,
    uint8_t *out, size_t out_len, double numbers[2], size_t wholes[2]);

/* Reads a question file. Returns 0 and writes the returns and the given entries to the front of their
   slices, whose later numbers keep their value, and
       bits:   those of the estimate, the shrinkage and the regularization, 0 where there are none
       wholes: assets, periods, estimate, shrinkage, regularization, has_limit, limit (0 if none), question
   else, with nothing written anywhere,

   15  the file is no question
    4  returns_len or given_len is less than the file has; 1,024 and 64 are always enough */

uint32_t engine_read_question(
    const uint8_t *file, size_t file_len,
    uint64_t *returns, size_t returns_len, uint64_t *given, size_t given_len,
    uint64_t bits[3], size_t wholes[8]);

/* ---- The exam program (document 01, 'The exam program')

   Marks a question file: writes the answer's text to the front of out, and returns how many bytes
   that is. An out that is too short takes the text's beginning; 8,192 bytes are always enough. */

size_t exam_mark(const uint8_t *paper, size_t paper_len, uint8_t *out, size_t out_len);

#ifdef __cplusplus
}
#endif

#endif
