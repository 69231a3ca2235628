//! The answers over our sine, cosine and half-angle agree with those over the machine's sine, cosine and atan2, and wrong ones don't pass.

use compare::distances::{Agreement, Distances, band, bound};
use nalgebra::{Matrix3, UnitQuaternion, Vector3};
use requests::bench_list::{accepted, refused};
use requests::turning::{self, Turning};
use requests::{Outcome, Refusal, Request};
use std::process::{Command, Stdio};

/// Draws so many requests for each call, has them answered, and looks at the answers.
fn agreement(each: usize, answer: impl Fn(&Request, &mut Outcome)) -> Result<String, String> {
    let mut turning = Turning::new(1);
    let mut agreement = Agreement::default();
    let mut request = Request::default();
    let (mut reference, mut outcome) = (Outcome::default(), Outcome::default());
    for call in turning::calls() {
        for _ in 0..each {
            turning.draw_for(call, band(call), &mut request);
            answers_libm::answer(&request, &mut reference);
            answer(&request, &mut outcome);
            agreement.look(&request, &reference, &outcome)?;
        }
    }
    agreement.table()
}

#[test]
fn ours_agree() {
    let table = agreement(2000, answers::answer).unwrap();
    for call in turning::calls() {
        assert!(table.contains(call.name), "{}", call.name);
    }
}

#[test]
fn the_two_references_differ() {
    let mut turning = Turning::new(1);
    let (mut request, mut differ) = (Request::default(), 0);
    let (mut reference, mut outcome) = (Outcome::default(), Outcome::default());
    for call in turning::calls() {
        for _ in 0..1000 {
            turning.draw_for(call, band(call), &mut request);
            answers_libm::answer(&request, &mut reference);
            answers::answer(&request, &mut outcome);
            differ += u32::from(outcome != reference);
        }
    }
    assert!(differ > 1000, "{differ}");
}

/// The smallest input found of which M's second coefficient differs: the cosine of the C library is one unit lower in its last place. With another C
/// library it may be the same.
#[test]
fn a_unit_of_the_cosine_shows() {
    let [theta, nu, s] = [0.012767, 1.0, 1.0];
    let values = [0.0, 0.0, 0.0, 0.0, nu, 0.0, theta, 0.0, 0.0, s];
    let request = Request {
        number: 85,
        first: values.map(f64::to_bits).to_vec(),
        ..Request::default()
    };
    let (mut reference, mut outcome) = (Outcome::default(), Outcome::default());
    answers_libm::answer(&request, &mut reference);
    answers::answer(&request, &mut outcome);
    assert_eq!(outcome.values[1], 0x3fdf_ffe3_83b5_4792);
    assert!([0x3fdf_ffe3_83b5_a76e, outcome.values[1]].contains(&reference.values[1]));
}

/// No call may be left out.
#[test]
fn nothing_asked() {
    let error = agreement(0, answers::answer).unwrap_err();
    assert!(error.contains("never asked"), "{error}");
}

/// One value of one call, moved by twice its bound.
#[test]
fn a_value_too_far() {
    for wrong in turning::calls() {
        for place in 0..wrong.answer.length() {
            let moved = |request: &Request, outcome: &mut Outcome| {
                answers::answer(request, outcome);
                if request.number == wrong.number {
                    let value = f64::from_bits(outcome.values[place]);
                    outcome.values[place] = (value + 2.0 * bound(wrong)).to_bits();
                }
            };
            assert!(agreement(1, moved).is_err(), "{} {place}", wrong.name);
        }
    }
}

#[test]
fn no_finite_answer() {
    let call = turning::calls().next().expect("there are calls");
    let outcome_of = |wrong: Outcome| {
        move |request: &Request, outcome: &mut Outcome| match request.number == call.number {
            true => outcome.clone_from(&wrong),
            false => answers::answer(request, outcome),
        }
    };
    let values = vec![f64::NAN; call.answer.length()];
    for wrong in [
        refused(Refusal::Turn),
        accepted(&values),
        accepted(&values[1..]),
        accepted(&[]),
    ] {
        assert!(
            agreement(1, outcome_of(wrong.clone())).is_err(),
            "{wrong:?}"
        );
    }
}

/// SO(3)'s exp with a sine that is wrong by a little more than the bound, for all angles or for the largest alone.
#[test]
fn a_wrong_sine() {
    let exp = |wrong: fn(f64) -> f64| {
        move |request: &Request, outcome: &mut Outcome| {
            if request.call().name != "so3_exp" {
                return answers::answer(request, outcome);
            }
            let [x, y, z] = request.theta().expect("a tangent");
            let sine = |angle| trigonometry::sine(angle) + wrong(angle);
            let theta = Vector3::new(x, y, z);
            let q = UnitQuaternion::from_scaled_axis_by(sine, trigonometry::cosine, theta);
            outcome.clone_from(&accepted(&[q.w, q.i, q.j, q.k]));
        }
    };
    assert!(agreement(2000, exp(|_| 0.0)).is_ok());
    assert!(agreement(2000, exp(|_| 2f64.powi(-22))).is_err());
    let largest = |angle: f64| if angle > 1.45 { 2f64.powi(-22) } else { 0.0 };
    assert!(agreement(2000, exp(largest)).is_err());
}

/// SO(3)'s log with a half-angle that is wrong by the bound, so that theta is by twice that; for all angles or for the largest alone. And with one that is
/// not negated where w is below zero.
#[test]
fn a_wrong_half_angle() {
    let log = |wrong: fn(f64, f64) -> f64| {
        move |request: &Request, outcome: &mut Outcome| {
            answers::answer(request, outcome);
            if request.call().name == "so3_log" {
                let w = f64::from_bits(request.first[0]);
                let [x, y, z] = std::array::from_fn(|at| f64::from_bits(outcome.values[at]));
                let half = Vector3::new(x, y, z).norm() / 2.0;
                let values = [x, y, z].map(|value| value / half * wrong(half, w));
                outcome.clone_from(&accepted(&values));
            }
        }
    };
    assert!(agreement(2000, log(|half, _| half)).is_ok());
    assert!(agreement(2000, log(|half, _| half + 2f64.powi(-24))).is_err());
    let largest = |half, _| match half > 1.45 {
        true => half + 2f64.powi(-24),
        false => half,
    };
    assert!(agreement(2000, log(largest)).is_err());
    assert!(agreement(2000, log(|half, w: f64| half.copysign(w))).is_err());
}

/// The inverse Jacobian with a sine that is wrong by the bound: it divides, and at small angles the answer is further off.
#[test]
fn a_wrong_sine_that_divides() {
    let inverse = |wrong: f64| {
        move |request: &Request, outcome: &mut Outcome| {
            answers::answer(request, outcome);
            if request.call().name == "so3_left_jacobian_inv" {
                let [x, y, z] = request.theta().expect("a tangent");
                let theta = Vector3::new(x, y, z);
                let angle = theta.norm();
                let sine = trigonometry::sine(angle) + wrong;
                let k = (1.0 + trigonometry::cosine(angle)) / (2.0 * angle * sine);
                let k = 1.0 / theta.norm_squared() - k;
                let hat = Matrix3::new(0.0, -z, y, z, 0.0, -x, -y, x, 0.0);
                let matrix = Matrix3::identity() - 0.5 * hat + k * hat * hat;
                let values: [f64; 9] = std::array::from_fn(|at| matrix[(at / 3, at % 3)]);
                outcome.clone_from(&accepted(&values));
            }
        }
    };
    assert!(agreement(2000, inverse(0.0)).is_ok());
    assert!(agreement(2000, inverse(2f64.powi(-24))).is_err());
}

/// A program that ends at once, and one that says back what it is asked; and no requests at all.
#[test]
fn wrong_programs() {
    let status = |arguments: &[&str]| {
        let status = Command::new(env!("CARGO_BIN_EXE_agree"))
            .args(arguments)
            .stdout(Stdio::null())
            .stderr(Stdio::null())
            .status();
        status.unwrap().code()
    };
    for program in ["true", "cat"] {
        for count in ["0", "20000"] {
            assert_eq!(status(&[program, "--count", count]), Some(1), "{program}");
            let small = [program, "--count", count, "--small"];
            assert_eq!(status(&small), Some(1), "{program}");
        }
    }
    assert_eq!(status(&[]), Some(2));
}
