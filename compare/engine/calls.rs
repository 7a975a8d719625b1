// The five calls, over the inputs of the copy and with reports of the same form. The weighted mean
// has an export for each of its two settings. Beside them the call that takes prices.

use reference::covariance::Decay;
use reference::flat::{flat_target, Flat, FlatSettings};
use reference::input::{Call, Input, UNTOUCHED};

unsafe extern "C" {
    fn engine_adjusted_covariance(
        returns: *const f64,
        returns_len: usize,
        assets: usize,
        periods: usize,
        estimate: u32,
        estimate_value: f64,
        shrinkage: u32,
        shrinkage_value: f64,
        regularization: u32,
        regularization_value: f64,
        limit: usize,
        given: *const f64,
        given_len: usize,
        side: usize,
        answer: *mut f64,
        answer_len: usize,
        numbers: *mut [f64; 2],
        wholes: *mut [usize; 2],
    ) -> u32;
    fn engine_ledoit_wolf(
        returns: *const f64,
        returns_len: usize,
        assets: usize,
        periods: usize,
        target: u32,
        numbers: *mut [f64; 2],
        wholes: *mut [usize; 2],
    ) -> u32;
    fn engine_returns_from_prices(
        prices: *const f64,
        prices_len: usize,
        assets: usize,
        rows: usize,
        returns: *mut f64,
        returns_len: usize,
        numbers: *mut [f64; 2],
        wholes: *mut [usize; 2],
    ) -> u32;
}

// The means, which differ in the setting that they take.
macro_rules! means {
    ($($name:ident($setting:ty)),*) => {
        unsafe extern "C" {
            $(fn $name(
                returns: *const f64,
                returns_len: usize,
                assets: usize,
                periods: usize,
                setting: $setting,
                answer: *mut f64,
                answer_len: usize,
                numbers: *mut [f64; 2],
                wholes: *mut [usize; 2],
            ) -> u32;)*
        }
    };
}
means!(
    engine_weighted_mean(f64),
    engine_weighted_mean_by_factor(f64),
    engine_james_stein_mean(usize),
    engine_bayes_stein_mean(usize)
);

/// What the call reports, and the whole answer slice after it.
pub fn answered(input: &Input) -> (Flat, Vec<f64>) {
    let mut slice = input.answer.clone();
    let flat = answer_into(input, &mut slice);
    (flat, slice)
}

/// The call that the input names, on this answer slice.
pub fn answer_into(input: &Input, answer: &mut [f64]) -> Flat {
    let Input { returns, n, t, .. } = input;
    macro_rules! mean {
        ($call:ident, $setting:expr) => {
            reported(|numbers, wholes| unsafe {
                $call(
                    returns.as_ptr(),
                    returns.len(),
                    *n,
                    *t,
                    $setting,
                    answer.as_mut_ptr(),
                    answer.len(),
                    numbers,
                    wholes,
                )
            })
        };
    }
    match &input.call {
        Call::AdjustedCovariance {
            settings,
            given,
            side,
        } => adjusted_covariance(
            returns,
            (*n, *t),
            &FlatSettings::of(settings),
            (given, *side),
            answer,
        ),
        Call::LedoitWolf(target) => ledoit_wolf(returns, (*n, *t), flat_target(*target)),
        Call::ExponentiallyWeightedMean { decay } => match decay {
            Decay::HalfLife(half_life) => mean!(engine_weighted_mean, *half_life),
            Decay::Lambda(lambda) => mean!(engine_weighted_mean_by_factor, *lambda),
        },
        Call::JamesSteinMean { limit } => mean!(engine_james_stein_mean, *limit),
        Call::BayesSteinMean { limit } => mean!(engine_bayes_stein_mean, *limit),
    }
}

pub fn adjusted_covariance(
    returns: &[f64],
    (assets, periods): (usize, usize),
    settings: &FlatSettings,
    (given, side): (&[f64], usize),
    answer: &mut [f64],
) -> Flat {
    reported(|numbers, wholes| unsafe {
        engine_adjusted_covariance(
            returns.as_ptr(),
            returns.len(),
            assets,
            periods,
            settings.estimate.0,
            settings.estimate.1,
            settings.shrinkage.0,
            settings.shrinkage.1,
            settings.regularization.0,
            settings.regularization.1,
            settings.limit,
            given.as_ptr(),
            given.len(),
            side,
            answer.as_mut_ptr(),
            answer.len(),
            numbers,
            wholes,
        )
    })
}

pub fn ledoit_wolf(returns: &[f64], (assets, periods): (usize, usize), target: u32) -> Flat {
    reported(|numbers, wholes| unsafe {
        engine_ledoit_wolf(
            returns.as_ptr(),
            returns.len(),
            assets,
            periods,
            target,
            numbers,
            wholes,
        )
    })
}

pub fn returns_from_prices(
    prices: &[f64],
    (assets, rows): (usize, usize),
    returns: &mut [f64],
) -> Flat {
    reported(|numbers, wholes| unsafe {
        engine_returns_from_prices(
            prices.as_ptr(),
            prices.len(),
            assets,
            rows,
            returns.as_mut_ptr(),
            returns.len(),
            numbers,
            wholes,
        )
    })
}

/// The report of a call.
pub(crate) fn reported(call: impl FnOnce(*mut [f64; 2], *mut [usize; 2]) -> u32) -> Flat {
    let (mut numbers, mut wholes) = ([UNTOUCHED; 2], [usize::MAX; 2]);
    let number = call(&mut numbers, &mut wholes);
    Flat {
        number,
        numbers,
        wholes,
    }
}
