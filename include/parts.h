/* The engine's parts with C linkage, for whoever compares them: the decomposition and the float leaves. Link
   target/staticlib/libparts.a, which `tools/build parts` writes. Slices and matrices are as in engine.h. */

#ifndef PARTS_H
#define PARTS_H

#include <stdbool.h>
#include <stddef.h>
#include <stdint.h>

#ifdef __cplusplus
extern "C" {
#endif

/* ---- The decomposition

   a = V diag(values) V', for a symmetric matrix of `side` at most 24, in at most `limit` sweeps, at
   most 100. Returns 0 where it is found and 1 where it is not: values and vectors then hold what
   the sweeps reached, or zeros and the identity where an entry is NaN or infinite. counts: the
   sweeps and the rotations made. Returns 2, and writes nothing, where side or limit is larger, or
   a_len, values_len and vectors_len are not side * side, side and side * side. */

uint32_t matrix_decompose(
    const double *a, size_t a_len, size_t side, size_t limit,
    double *values, size_t values_len, double *vectors, size_t vectors_len, size_t counts[2]);

/* ---- The float leaves (document 01, 'Float leaves'; document 02, the log) */

bool leaf_is_finite(double x);
double leaf_abs(double x);
double leaf_signum(double x); /* 1 at +0, -1 at -0 */
double leaf_larger(double first, double second);
double leaf_smaller(double first, double second);
double leaf_min0(double y);
double leaf_max0(double y);
double leaf_clamp01(double y);
int32_t leaf_binary_exponent(double x);
double leaf_pow2_scaled(double x, int32_t k); /* some |k| / 1000 calls deep */
double leaf_sqrt(double x);
double leaf_exp(double y); /* NaN above 0 */
double leaf_exp_m1(double y);
double leaf_ln(double x); /* NaN unless 0 < x < 1 */
double leaf_sum(const double *xs, size_t xs_len);
double leaf_amax(const double *xs, size_t xs_len);

#ifdef __cplusplus
}
#endif

#endif
