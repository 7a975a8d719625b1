// Carried over from eigen.rs of the source; see NOTICE.
// `SymmetricEigen::new` and `rotate`. As document 01, 'Jacobi', has it, V begins as the identity
// (the `None` arm of `start`), the sweep limit is given, and sweeps and rotations are counted.

use crate::leaves::{abs, is_finite, signum, sqrt, sum_of};
use crate::matrix::Matrix;

/// `A = V diag(λ) Vᵀ` for a symmetric `A`: eigenvalues, unordered, and eigenvectors in the
/// matching columns of `V`.
pub struct SymmetricEigen {
    pub values: Vec<f64>,
    pub vectors: Matrix,
    /// The passes made.
    pub sweeps: usize,
    /// The rotations made in them. An entry of 0 is not rotated and not counted.
    pub rotations: usize,
}

impl SymmetricEigen {
    /// Decomposes the symmetric matrix `a` by cyclic Jacobi rotations.
    ///
    /// Returns `None` if `a` has NaN or infinite entries, the sum of squares off the diagonal is
    /// NaN, or the sweeps run out. A test for the end stands before every sweep; no test follows the
    /// last.
    pub fn new(a: &Matrix, limit: usize) -> Option<Self> {
        let n = a.nrows();
        if a.entries().iter().any(|&x| !is_finite(x)) {
            return None;
        }
        let scale = a.amax();
        if scale == 0.0 {
            return Some(SymmetricEigen {
                values: vec![0.0; n],
                vectors: Matrix::identity(n),
                sweeps: 0,
                rotations: 0,
            });
        }
        let a = a / scale;
        let mut v = Matrix::identity(n);
        let rotated = &(&v.transpose() * &a) * &v;
        let mut a = 0.5 * &(&rotated + &rotated.transpose());
        let tolerance = f64::EPSILON * a.norm();

        let mut rotations = 0;
        for sweeps in 0..limit {
            let off_diagonal = sum_of(
                (0..n)
                    .flat_map(|p| (p + 1..n).map(move |q| (p, q)))
                    .map(|(p, q)| a[(p, q)] * a[(p, q)]),
            );
            if off_diagonal.is_nan() {
                break;
            }
            if sqrt(2.0 * off_diagonal) <= tolerance {
                return Some(SymmetricEigen {
                    values: a.diagonal().iter().map(|x| x * scale).collect(),
                    vectors: v,
                    sweeps,
                    rotations,
                });
            }
            for p in 0..n {
                for q in p + 1..n {
                    if rotate(&mut a, &mut v, p, q) {
                        rotations += 1;
                    }
                }
            }
        }
        None
    }
}

/// Applies the Jacobi rotation that zeroes `a[(p, q)]`: `A ← JᵀAJ` and `V ← VJ`. Returns whether it
/// turned, which it does not at an entry of 0.
pub fn rotate(a: &mut Matrix, v: &mut Matrix, p: usize, q: usize) -> bool {
    let apq = a[(p, q)];
    if apq == 0.0 {
        return false;
    }
    // t = tan θ is the smaller root of t² + 2τt − 1 = 0, which keeps the rotation below 45°.
    // When τ is so large that τ² overflows, t ≈ 1 / 2τ.
    let tau = (a[(q, q)] - a[(p, p)]) / (2.0 * apq);
    let t = if abs(tau) > 1e150 {
        0.5 / tau
    } else {
        signum(tau) / (abs(tau) + sqrt(tau * tau + 1.0))
    };
    let c = 1.0 / sqrt(t * t + 1.0);
    let s = t * c;

    let n = a.nrows();
    for k in 0..n {
        let (akp, akq) = (a[(k, p)], a[(k, q)]);
        a[(k, p)] = c * akp - s * akq;
        a[(k, q)] = s * akp + c * akq;
    }
    for k in 0..n {
        let (apk, aqk) = (a[(p, k)], a[(q, k)]);
        a[(p, k)] = c * apk - s * aqk;
        a[(q, k)] = s * apk + c * aqk;
    }
    a[(p, q)] = 0.0;
    a[(q, p)] = 0.0;
    for k in 0..n {
        let (vkp, vkq) = (v[(k, p)], v[(k, q)]);
        v[(k, p)] = c * vkp - s * vkq;
        v[(k, q)] = s * vkp + c * vkq;
    }
    true
}
