//! What docs/src answers to a request. The refusals come first: 1, 2, 7 and 3 by the reading in `requests`, 4 by tests of
//! numbers that docs/src computes. Then docs/src's own function of the call's name gives the values, and 5 looks at
//! these.
//!
//! The package `answers` takes docs/src over our sine, cosine and half-angle, and `answers_libm`, which is this same code,
//! docs/src unchanged, over the machine's sine, cosine and atan2.
//!
//! docs/src knows the tolerance 1e-6 only. No operation depends on it, so at another one the values are still docs/src's,
//! and only its own checks may say otherwise.
//!
//! Values are handed over as bits. A NaN can come in, where only its being none is asked, and never gets out: a
//! result that holds one is refused with 5. from_param_slice alone hands a NaN back, always with the same bits. So
//! nothing here depends on a NaN's sign or payload, which Rust leaves open.

mod turns;
mod values;

use apex::error::ElementError;
use apex::sgal3::SGal3;
use apex::so3::SO3;
use apex::{LieGroup, ManifoldError};
use requests::refusals::{self, Refusal};
use requests::{Call, Outcome, Request};

/// The outcome of one request.
pub fn answer(request: &Request, outcome: &mut Outcome) {
    let call = request.call();
    let blocks = refusals::of_blocks(call, request);
    compare_checks(call, request, blocks);
    if let Some(refusal) = blocks.or_else(|| turns::refusal(call, request)) {
        return outcome.refuse(call, refusal);
    }
    outcome.accept();
    let finite = values::put(call, request, &mut outcome.values);
    debug_assert_eq!(outcome.values.len(), call.answer.length(), "{}", call.name);
    if !finite {
        outcome.refuse(call, Refusal::Overflow);
    }
}

/// Where docs/src checks blocks itself it has to say the same as the reading in `requests`: at 1e-6 in all, and at other
/// tolerances in 1 and 2, which come before them.
fn compare_checks(call: &Call, request: &Request, expected: Option<Refusal>) {
    let first = || -> Vec<f64> { request.first.iter().map(|b| f64::from_bits(*b)).collect() };
    let found = match call.name {
        "validate_sgal3_params" => SGal3::validate_params(&first()).err(),
        "validate_so3_params" => SO3::validate_params(&first()).err(),
        "so3_try_from_quaternion_wxyz" => {
            let q = first();
            match SO3::try_from_quaternion_wxyz(q[0], q[1], q[2], q[3]) {
                Ok(_) => None,
                Err(ManifoldError::Element(error)) => Some(error),
                Err(error) => panic!("{error}"),
            }
        }
        _ => return,
    };
    let found = found.map(|error| match error {
        ElementError::ParamLength {
            expected, actual, ..
        } => Refusal::Length { expected, actual },
        ElementError::NonFinite { .. } => Refusal::NotFinite,
        ElementError::NonUnitQuaternion { norm } => Refusal::NotUnit { norm },
        error => panic!("{error}"),
    });
    let before_tolerance =
        |refusal| matches!(refusal, Some(Refusal::Length { .. } | Refusal::NotFinite));
    if request.extra == refusals::TOLERANCE.to_bits()
        || before_tolerance(found)
        || before_tolerance(expected)
    {
        assert_eq!(
            found, expected,
            "docs/src and the reading of the refusals differ at {request:?}"
        );
    }
}
