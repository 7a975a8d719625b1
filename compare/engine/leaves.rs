// The float leaves.

unsafe extern "C" {
    #[link_name = "leaf_is_finite"]
    pub safe fn is_finite(x: f64) -> bool;
    #[link_name = "leaf_abs"]
    pub safe fn abs(x: f64) -> f64;
    #[link_name = "leaf_signum"]
    pub safe fn signum(x: f64) -> f64;
    #[link_name = "leaf_larger"]
    pub safe fn larger(first: f64, second: f64) -> f64;
    #[link_name = "leaf_smaller"]
    pub safe fn smaller(first: f64, second: f64) -> f64;
    #[link_name = "leaf_min0"]
    pub safe fn min0(y: f64) -> f64;
    #[link_name = "leaf_max0"]
    pub safe fn max0(y: f64) -> f64;
    #[link_name = "leaf_clamp01"]
    pub safe fn clamp01(y: f64) -> f64;
    #[link_name = "leaf_binary_exponent"]
    pub safe fn binary_exponent(x: f64) -> i32;
    #[link_name = "leaf_pow2_scaled"]
    pub safe fn pow2_scaled(x: f64, k: i32) -> f64;
    #[link_name = "leaf_sqrt"]
    pub safe fn sqrt(x: f64) -> f64;
    #[link_name = "leaf_exp"]
    pub safe fn exp(y: f64) -> f64;
    #[link_name = "leaf_exp_m1"]
    pub safe fn exp_m1(y: f64) -> f64;
    #[link_name = "leaf_ln"]
    pub safe fn ln(x: f64) -> f64;
    fn leaf_sum(xs: *const f64, len: usize) -> f64;
    fn leaf_amax(xs: *const f64, len: usize) -> f64;
}

pub fn sum(xs: &[f64]) -> f64 {
    unsafe { leaf_sum(xs.as_ptr(), xs.len()) }
}

pub fn amax(xs: &[f64]) -> f64 {
    unsafe { leaf_amax(xs.as_ptr(), xs.len()) }
}
