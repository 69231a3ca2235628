//! Refusal 4: what the calls test of a turn, at numbers that docs/src computes. docs/src itself goes on with sines and with atan2.
//!
//! - exp, plus and the Jacobians of tangents, the inverse ones among them: the squared angle of the tangent.
//! - log, vee, minus and their Jacobians: the squared angle of the logarithm that docs/src answers. Where log leaves its series by the half angle, and
//!   the inverse Jacobian and SGal(3)'s coupling matrix theirs by that squared angle, they only choose a branch.
//!
//! Sine and cosine of a number are no functions of docs/src: their calls look at its magnitude. The half-angle is not tested.

use crate::values::{element, number, rotation, sgal3_tangent, so3_tangent};
use apex::LieGroup;
use nalgebra::Vector3;
use requests::calls::{Block, Of, Turn};
use requests::refusals::{self, NUMBER_LIMIT, Refusal, TURN_LIMIT};
use requests::{Call, Request};

/// Refusal 4 of a request that 1, 2, 7 and 3 don't refuse.
pub fn refusal(call: &Call, request: &Request) -> Option<Refusal> {
    let squared = |theta: Vector3<f64>| refusals::turn(theta.norm_squared(), TURN_LIMIT);
    match call.turn {
        Turn::Untested => None,
        Turn::Exp => squared(tangent(call, request)),
        Turn::Log(of) => squared(logarithm(call, request, of)),
        Turn::Number => refusals::turn(number(&request.first).abs(), NUMBER_LIMIT),
    }
}

/// The theta of the tangent, which is the last block.
fn tangent(call: &Call, request: &Request) -> Vector3<f64> {
    match (call.first, call.second) {
        (Block::So3Tangent, _) => so3_tangent(&request.first).coeffs(),
        (_, Block::So3Tangent) => so3_tangent(&request.second).coeffs(),
        (Block::Sgal3Tangent, _) => sgal3_tangent(&request.first).theta(),
        (_, Block::Sgal3Tangent) => sgal3_tangent(&request.second).theta(),
        _ => unreachable!("{} has no tangent", call.name),
    }
}

/// The theta of the logarithm that the call takes.
fn logarithm(call: &Call, request: &Request, of: Of) -> Vector3<f64> {
    match call.first {
        Block::Element => {
            let other = || element(&request.second);
            let element = related(of, element(&request.first), other);
            element.log(None).theta()
        }
        _ => {
            let other = || rotation(&request.second);
            let rotation = related(of, rotation(&request.first), other);
            rotation.log(None).coeffs()
        }
    }
}

/// The element whose logarithm right_minus or left_minus of lib.rs takes, or the element itself.
fn related<G: LieGroup>(of: Of, own: G, other: impl Fn() -> G) -> G {
    match of {
        Of::First => own,
        Of::RightMinus => other().inverse(None).compose(&own, None, None),
        Of::LeftMinus => own.compose(&other().inverse(None), None, None),
    }
}

#[cfg(test)]
mod tests {
    #[test]
    fn the_limits_of_docs_src() {
        let tolerance = apex::so3::SO3::QUATERNION_NORM_TOLERANCE;
        assert_eq!(requests::turning::SERIES_LIMIT, apex::SMALL_ANGLE_THRESHOLD);
        assert_eq!(requests::refusals::TOLERANCE, tolerance);
    }
}
