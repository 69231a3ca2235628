//! The reference says what the scope's bench list says, and what the orders of operations give.

use answers::answer;
use requests::bench_list::{
    accepted, adjoints, limits, lines, orders, refused, request, tolerances, within,
};
use requests::{Outcome, Refusal, Request};

fn asked(request: &Request) -> Outcome {
    let mut outcome = Outcome::default();
    answer(request, &mut outcome);
    outcome
}

#[test]
fn every_line_of_the_bench_list() {
    for line in lines() {
        assert_eq!(asked(&line.request), line.outcome, "{}", line.says);
    }
}

#[test]
fn orders_of_operations() {
    for order in orders() {
        let outcome = asked(&order.request);
        assert_eq!(outcome.number, 0, "{}", order.says);
        assert_eq!(outcome.values[order.place], order.bits, "{}", order.says);
    }
}

#[test]
fn turns_at_the_limit() {
    for limit in limits() {
        let outcome = asked(&limit.request);
        assert_eq!(outcome.number, limit.number, "{}", limit.says);
    }
}

/// A short adjoint is refused where the whole one is.
#[test]
fn adjoints_that_overflow() {
    for limit in adjoints() {
        let outcome = asked(&limit.request);
        assert_eq!(outcome.number, limit.number, "{}", limit.says);
    }
}

/// 7 carries nothing, and a matrix is all +0.
#[test]
fn tolerances_at_the_ends() {
    for limit in tolerances() {
        let outcome = asked(&limit.request);
        assert_eq!(outcome.number, limit.number, "{}", limit.says);
        if limit.number == 7 {
            assert_eq!(outcome, refused(Refusal::Tolerance), "{}", limit.says);
        }
    }
    let mut adjoint = refused(Refusal::Tolerance);
    adjoint.values = vec![0; 9];
    let one = [1.0, 0.0, 0.0, 0.0];
    let asked_adjoint = within(0.0, request("so3_adjoint", &one, &[]));
    assert_eq!(asked(&asked_adjoint), adjoint);
}

/// The values don't depend on the tolerance: a quaternion further off is normalised as any other.
#[test]
fn answers_at_another_tolerance() {
    let tolerance = 1.0 / 1024.0;
    for norm in [1.0 + tolerance, 1.0 - tolerance] {
        let q = [0.0, norm, 0.0, 0.0];
        for (name, values) in [
            ("so3_try_from_quaternion_wxyz", [0.0, 1.0, 0.0, 0.0]),
            ("so3_inverse", [0.0, -1.0, -0.0, -0.0]),
        ] {
            let asked_at = |tolerance| asked(&within(tolerance, request(name, &q, &[])));
            assert_eq!(asked_at(tolerance), accepted(&values));
            assert_eq!(asked_at(1e-6), refused(Refusal::NotUnit { norm }));
        }
    }
}

/// A partial element is no block; handed in it is one.
#[test]
fn partial_elements() {
    let tolerance = 2f64.powi(-60);
    let block = |[w, x, y, z]: [f64; 4]| [0.0, 0.0, 0.0, w, x, y, z, 0.0, 0.0, 0.0, 0.0];
    let pair = [[0.6, 0.0, 0.8, 0.0], [0.8, 0.6, 0.0, 0.0]].map(block);
    let blocks = pair.concat().repeat(20);
    let chain = |count| request("sgal3_chain", &blocks[..11 * count], &[]);
    let mut refused = 0;
    for count in 0..40 {
        let partial = asked(&within(tolerance, chain(count)));
        let partial: Vec<f64> = partial.values.iter().map(|b| f64::from_bits(*b)).collect();
        let compose = request("sgal3_compose", &partial, &pair[count % 2]);
        assert_eq!(asked(&compose), asked(&within(tolerance, chain(count + 1))));
        refused += u32::from(asked(&within(tolerance, compose)).number == 3);
    }
    assert!(refused > 0);
}

/// The values of an accepted call.
fn values(name: &str, block: &[f64]) -> Vec<f64> {
    let outcome = asked(&request(name, block, &[]));
    assert_eq!(outcome.number, 0, "{name} of {block:?}");
    outcome.values.iter().map(|b| f64::from_bits(*b)).collect()
}

/// Tangents of SGal(3), by rising angles up to the limit.
fn tangents() -> impl Iterator<Item = [f64; 10]> {
    let directions = [
        [1.0, 0.0, 0.0],
        [0.6, 0.0, -0.8],
        [2.0 / 7.0, 3.0 / 7.0, 6.0 / 7.0],
    ];
    (1..192).flat_map(move |step| {
        let angle = f64::from(step) / 64.0;
        directions.map(|direction| {
            let [x, y, z] = direction.map(|value| value * angle);
            [1.0, -2.0, 0.5, 0.25, 3.0, -1.0, x, y, z, 2.0]
        })
    })
}

fn assert_near(found: &[f64], expected: &[f64], within: f64) {
    assert_eq!(found.len(), expected.len());
    for (a, b) in found.iter().zip(expected) {
        assert!((a - b).abs() <= within, "{found:?} for {expected:?}");
    }
}

#[test]
fn log_undoes_exp() {
    for tangent in tangents() {
        let theta = &tangent[6..9];
        assert_near(
            &values("so3_log", &values("so3_exp", theta)),
            theta,
            2f64.powi(-48),
        );
        // M's second coefficient is a difference of nearly equal numbers over the angle's fourth power.
        let angle = theta.iter().map(|value| value * value).sum::<f64>().sqrt();
        let within = 2f64.powi(-43) / angle.min(1.0).powi(4);
        assert_near(
            &values("sgal3_log", &values("sgal3_exp", &tangent)),
            &tangent,
            within,
        );
    }
}

#[test]
fn the_inverse_jacobian_inverts() {
    let identity: [f64; 9] = std::array::from_fn(|at| if at % 4 == 0 { 1.0 } else { 0.0 });
    for tangent in tangents() {
        let of = |name: &str| values(name, &tangent[6..9]);
        for side in ["left", "right"] {
            let jacobian = of(&format!("so3_{side}_jacobian"));
            let inverse = of(&format!("so3_{side}_jacobian_inv"));
            let product: [f64; 9] = std::array::from_fn(|at| {
                let (row, column) = (at / 3, at % 3);
                (0..3)
                    .map(|k| jacobian[3 * row + k] * inverse[3 * k + column])
                    .sum()
            });
            assert_near(&product, &identity, 2f64.powi(-43));
        }
    }
}

/// q and -q are the same rotation, with the same half-angle.
#[test]
fn both_quaternions_of_a_rotation() {
    for tangent in tangents() {
        let q = values("so3_exp", &tangent[6..9]);
        let other: Vec<f64> = q.iter().map(|value| -value).collect();
        for name in ["so3_log", "so3_log_jacobian", "so3_half_angle"] {
            let [one, same] = [&q, &other].map(|q| asked(&request(name, q, &[])));
            assert_eq!(one, same, "{name} of {q:?}");
        }
    }
}

/// Each number is tried over all blocks before the next, and a matrix is all +0 on a refusal.
#[test]
fn order_of_the_refusals() {
    let one = [1.0, 0.0, 0.0, 0.0];
    let two = [2.0, 0.0, 0.0, 0.0];
    let four = [4.0, 0.0, 0.0, 0.0];
    let nan = [1.0, 0.0, f64::NAN, 0.0];
    let compose = |first: &[f64], second: &[f64]| asked(&request("so3_compose", first, second));
    let length = |actual| {
        let expected = 4;
        refused(Refusal::Length { expected, actual })
    };
    assert_eq!(compose(&nan, &one[..3]), length(3));
    assert_eq!(compose(&one[..2], &one[..3]), length(2));
    assert_eq!(compose(&two, &nan), refused(Refusal::NotFinite));
    assert_eq!(
        compose(&two, &[2f64.powi(512), 0.0, 0.0, 0.0]),
        refused(Refusal::NotFinite)
    );
    assert_eq!(
        compose(&two, &four),
        refused(Refusal::NotUnit { norm: 2.0 })
    );
    assert_eq!(
        compose(&one, &four),
        refused(Refusal::NotUnit { norm: 4.0 })
    );
    let mut plus = refused(Refusal::NotUnit { norm: 2.0 });
    plus.values = vec![0; 9];
    let asked_plus = request("so3_plus_jacobian_self", &two, &[2.0; 3]);
    assert_eq!(asked(&asked_plus), plus);
}

#[test]
fn chains() {
    let identity = [0.0, 0.0, 0.0, 1.0, 0.0, 0.0, 0.0, 0.0, 0.0, 0.0, 0.0];
    let chain = |values: &[f64]| asked(&request("sgal3_chain", values, &[]));
    assert_eq!(chain(&identity.repeat(744)), accepted(&identity));
    let (expected, actual) = (22, 25);
    let not_whole = refused(Refusal::Length { expected, actual });
    assert_eq!(chain(&identity.repeat(3)[..25]), not_whole);
    // an overflow on the way gives way to a later block's refusal
    let mut blocks = identity.repeat(3);
    (blocks[0], blocks[11]) = (f64::MAX, f64::MAX);
    assert_eq!(chain(&blocks), refused(Refusal::Overflow));
    blocks[25] = 2.0;
    assert_eq!(chain(&blocks), refused(Refusal::NotUnit { norm: 2.0 }));
    blocks[32] = f64::INFINITY;
    assert_eq!(chain(&blocks), refused(Refusal::NotFinite));
}
