//! The scope's bench list, as requests with the outcomes that it states, written out by hand. Of its lines only the
//! text that the program `chain` prints can't be asked here.
//!
//! Beside it: inputs at which another order of operations shows, turns at a limit, tolerances at the ends of their
//! range, and adjoints that overflow.

use crate::Refusal;
use crate::calls::CALLS;
use crate::format::{Outcome, Request};
use crate::refusals::{MOST_TOLERANCE, TOLERANCE};
use crate::turning::LARGEST_OF_SERIES;

/// A line of the list.
pub struct Line {
    pub says: &'static str,
    pub request: Request,
    pub outcome: Outcome,
}

const A: [f64; 11] = [1.0, 2.0, 3.0, 1.0, 0.0, 0.0, 0.0, 4.0, 0.0, 0.0, 0.5];
const B: [f64; 11] = [1.0, 1.0, 1.0, 1.0, 0.0, 0.0, 0.0, 0.0, 2.0, 0.0, 2.0];
const IDENTITY: [f64; 11] = [0.0, 0.0, 0.0, 1.0, 0.0, 0.0, 0.0, 0.0, 0.0, 0.0, 0.0];
const A_THEN_B: [f64; 11] = [10.0, 3.0, 4.0, 1.0, 0.0, 0.0, 0.0, 4.0, 2.0, 0.0, 2.5];

/// A request for the call with this name, at 1e-6 where it has a tolerance.
pub fn request(name: &str, first: &[f64], second: &[f64]) -> Request {
    let call = CALLS.iter().find(|call| call.name == name);
    let call = call.expect("a name of the list of calls");
    let extra = if call.has_tolerance() { TOLERANCE } else { 0.0 };
    Request {
        number: call.number,
        extra: extra.to_bits(),
        first: bits(first),
        second: bits(second),
    }
}

/// The same at another tolerance.
pub fn within(tolerance: f64, request: Request) -> Request {
    Request {
        extra: tolerance.to_bits(),
        ..request
    }
}

/// An accepted outcome with these values.
pub fn accepted(values: &[f64]) -> Outcome {
    Outcome {
        number: 0,
        figures: [0, 0],
        values: bits(values),
    }
}

/// A yes or a no.
fn says(yes: bool) -> Outcome {
    Outcome {
        number: 0,
        figures: [0, 0],
        values: vec![yes.into()],
    }
}

/// The outcome of a refused call whose answer has no place of its own.
pub fn refused(refusal: Refusal) -> Outcome {
    Outcome {
        number: refusal.number(),
        figures: refusal.figures(),
        values: Vec::new(),
    }
}

/// The same of a call that answers nine places.
fn refused_matrix(refusal: Refusal) -> Outcome {
    Outcome {
        values: vec![0; 9],
        ..refused(refusal)
    }
}

fn bits(values: &[f64]) -> Vec<u64> {
    values.iter().map(|value| value.to_bits()).collect()
}

/// An element that is zero but for its quaternion.
fn turned(quaternion: [f64; 4]) -> [f64; 11] {
    let mut element = IDENTITY;
    element[3..7].copy_from_slice(&quaternion);
    element
}

/// Every line, in the order of the list.
pub fn lines() -> Vec<Line> {
    let mut list = Vec::new();
    let mut line = |says, name, first: &[f64], second: &[f64], outcome| {
        let request = request(name, first, second);
        list.push(Line {
            says,
            request,
            outcome,
        });
    };
    let power = |exponent| 2f64.powi(exponent);
    let not_unit = |norm| refused(Refusal::NotUnit { norm });

    line("A then B", "sgal3_compose", &A, &B, accepted(&A_THEN_B));
    let both = [A, B].concat();
    line(
        "A then B, as a chain",
        "sgal3_chain",
        &both,
        &[],
        accepted(&A_THEN_B),
    );

    let inverse = [
        1.0, -2.0, -3.0, 1.0, -0.0, -0.0, -0.0, -4.0, -0.0, -0.0, -0.5,
    ];
    line("inverse A", "sgal3_inverse", &A, &[], accepted(&inverse));
    let inverse = [
        -0.0, -0.0, -0.0, 1.0, -0.0, -0.0, -0.0, -0.0, -0.0, -0.0, -0.0,
    ];
    line(
        "inverse of the identity",
        "sgal3_inverse",
        &IDENTITY,
        &[],
        accepted(&inverse),
    );

    let point = [1.0, 2.0, 3.0];
    line(
        "(0.5, 0.5, 0.5, 0.5) rotates",
        "so3_act",
        &[0.5; 4],
        &point,
        accepted(&[3.0, 1.0, 2.0]),
    );
    line(
        "(0, 0, 0, 1) rotates",
        "so3_act",
        &[0.0, 0.0, 0.0, 1.0],
        &point,
        accepted(&[-1.0, -2.0, 3.0]),
    );
    line(
        "(0.5, 0.5, 0.5, 0.5) rotates, as an element",
        "sgal3_act",
        &turned([0.5; 4]),
        &point,
        accepted(&[3.0, 1.0, 2.0]),
    );
    line(
        "(0, 0, 0, 1) rotates, as an element",
        "sgal3_act",
        &turned([0.0, 0.0, 0.0, 1.0]),
        &point,
        accepted(&[-1.0, -2.0, 3.0]),
    );

    let origin = [0.0; 3];
    for (says, tau, answer) in [
        ("A on the origin at 2", 2.0, [9.0, 2.0, 3.0, 2.5]),
        ("A on the origin at A's own time", 0.5, [3.0, 2.0, 3.0, 1.0]),
    ] {
        let event = [0.0, 0.0, 0.0, tau];
        line(says, "sgal3_act_event", &A, &event, accepted(&answer));
    }
    let turned_step = [1.0, 1.0, 1.0, 0.5, 0.5, 0.5, 0.5, 0.0, 2.0, 0.0, 2.0];
    line(
        "a turned step on the event (1, 2, 3) at 0.5",
        "sgal3_act_event",
        &turned_step,
        &[1.0, 2.0, 3.0, 0.5],
        accepted(&[4.0, 3.0, 3.0, 2.5]),
    );
    line(
        "an event of three values",
        "sgal3_act_event",
        &A,
        &point,
        refused(Refusal::Length {
            expected: 4,
            actual: 3,
        }),
    );
    line(
        "an event with a NaN beside norm 2",
        "sgal3_act_event",
        &[0.0, 0.0, 0.0, 2.0, 0.0, 0.0, 0.0, 0.0, 0.0, 0.0, 0.0],
        &[0.0, 0.0, 0.0, f64::NAN],
        refused(Refusal::NotFinite),
    );
    line(
        "A on the origin",
        "sgal3_act",
        &A,
        &origin,
        accepted(&[3.0, 2.0, 3.0]),
    );

    for (says, w, outcome) in [
        ("w = 1 + 2^-20", 1.0 + power(-20), accepted(&[])),
        (
            "w = 1 + 2^-19",
            1.0 + power(-19),
            not_unit(1.0 + power(-19)),
        ),
        ("w = 2^511", power(511), not_unit(power(511))),
        ("w = 2^512", power(512), refused(Refusal::NotFinite)),
        ("all four zero", 0.0, not_unit(0.0)),
    ] {
        let q = [w, 0.0, 0.0, 0.0];
        line(
            says,
            "validate_sgal3_params",
            &turned(q),
            &[],
            outcome.clone(),
        );
        line(says, "validate_so3_params", &q, &[], outcome);
    }

    let mut ten = [0.0; 10];
    ten[0] = f64::NAN;
    let length = Refusal::Length {
        expected: 11,
        actual: 10,
    };
    line(
        "ten values, one NaN",
        "validate_sgal3_params",
        &ten,
        &[],
        refused(length),
    );
    let mut nan_time = turned([2.0, 0.0, 0.0, 0.0]);
    nan_time[10] = f64::NAN;
    line(
        "NaN time and norm 2",
        "validate_sgal3_params",
        &nan_time,
        &[],
        refused(Refusal::NotFinite),
    );

    let (w, x) = (1.0 - power(-37), power(-18) * (1.0 - power(-37)));
    let theta = [power(-17), 0.0, 0.0];
    line(
        "exp of theta (2^-17, 0, 0)",
        "so3_exp",
        &theta,
        &[],
        accepted(&[w, x, 0.0, 0.0]),
    );
    let mut tangent = [0.0; 10];
    tangent[6] = power(-17);
    line(
        "exp of theta (2^-17, 0, 0), SGal(3)",
        "sgal3_exp",
        &tangent,
        &[],
        accepted(&turned([w, x, 0.0, 0.0])),
    );
    // The cosine of 2^-17 is 1 - 2^-35 and a little, its sine 2^-17 - 2^-51 / 6, rounded.
    let (w, x) = (1.0 - power(-35), f64::from_bits(0x3edf_ffff_fffe_aaab));
    line(
        "exp of theta (2^-16, 0, 0)",
        "so3_exp",
        &[power(-16), 0.0, 0.0],
        &[],
        accepted(&[w, x, 0.0, 0.0]),
    );
    tangent[6] = power(-16);
    line(
        "exp of theta (2^-16, 0, 0), SGal(3)",
        "sgal3_exp",
        &tangent,
        &[],
        accepted(&turned([w, x, 0.0, 0.0])),
    );

    let tangent = [1.0, 0.0, 0.0, 0.0, 2.0, 0.0, 0.0, 0.0, 0.0, 3.0];
    let element = [1.0, 3.0, 0.0, 1.0, 0.0, 0.0, 0.0, 0.0, 2.0, 0.0, 3.0];
    line(
        "exp of rho (1, 0, 0), nu (0, 2, 0), s 3",
        "sgal3_exp",
        &tangent,
        &[],
        accepted(&element),
    );
    line(
        "log returns the tangent",
        "sgal3_log",
        &element,
        &[],
        accepted(&tangent),
    );

    // The norm is 1 + 2^-35 rounded, so x is 2^-17 × (1 - 2^-35), and log doubles it.
    let q = [1.0, power(-17), 0.0, 0.0];
    let theta = [power(-16) * (1.0 - power(-35)), 0.0, 0.0];
    line(
        "SO3 log of (1, 2^-17, 0, 0)",
        "so3_log",
        &q,
        &[],
        accepted(&theta),
    );
    let mut tangent = [0.0; 10];
    tangent[6..9].copy_from_slice(&theta);
    line(
        "SGal3 log of (1, 2^-17, 0, 0)",
        "sgal3_log",
        &turned(q),
        &[],
        accepted(&tangent),
    );
    let bits = f64::from_bits;
    let about_x = |same: u64, off: f64| {
        let same = bits(same);
        accepted(&[1.0, 0.0, 0.0, 0.0, same, -off, 0.0, off, same])
    };
    line(
        "SO3 log's Jacobian of (1, 2^-17, 0, 0)",
        "so3_log_jacobian",
        &q,
        &[],
        about_x(0x3fef_ffff_fffd_5556, theta[0] / 2.0),
    );

    // Half of theta is off the diagonal, so that it is -1.5 at the limit.
    let further = 3f64.next_up();
    for (says, x, outcome) in [
        (
            "inverse Jacobian of theta (2^-16, 0, 0)",
            power(-16),
            about_x(0x3fef_ffff_fffd_5555, -power(-17)),
        ),
        (
            "inverse Jacobian of theta (1, 0, 0)",
            1.0,
            about_x(0x3fed_49ad_7e47_c0a3, -0.5),
        ),
        (
            "inverse Jacobian of theta (3, 0, 0)",
            3.0,
            about_x(0x3fbb_3b36_7d9f_0610, -1.5),
        ),
        (
            "inverse Jacobian of the next theta",
            further,
            refused_matrix(Refusal::Turn),
        ),
    ] {
        let theta = [x, 0.0, 0.0];
        line(says, "so3_left_jacobian_inv", &theta, &[], outcome);
    }

    // A third of a turn about (1, 1, 1): 2π / 3 over the root of 3, a number beside the nearest.
    let third = [bits(0x3ff3_58e1_a79e_d7e2); 3];
    for (says, q) in [
        ("log of a third of a turn", [0.5; 4]),
        ("log of the same by the other quaternion", [-0.5; 4]),
    ] {
        line(says, "so3_log", &q, &[], accepted(&third));
        let mut tangent = [0.0; 10];
        tangent[6..9].copy_from_slice(&third);
        line(says, "sgal3_log", &turned(q), &[], accepted(&tangent));
    }
    line(
        "log of half a turn",
        "so3_log",
        &[0.0, 1.0, 0.0, 0.0],
        &[],
        refused(Refusal::Turn),
    );
    // A number beside the nearest to π / 2.
    line(
        "half-angle of half a turn",
        "so3_half_angle",
        &[-0.0, 1.0, 0.0, 0.0],
        &[],
        accepted(&[bits(0x3ff9_21fb_5444_2d19)]),
    );
    line(
        "half-angle of no turn",
        "so3_half_angle",
        &[1.0, 0.0, 0.0, 0.0],
        &[],
        accepted(&[0.0]),
    );

    line("empty chain", "sgal3_chain", &[], &[], accepted(&IDENTITY));

    let two = [2.0, 0.0, 0.0, 0.0];
    for (name, first, tolerance, yes) in [
        ("sgal3_is_valid", &turned(two)[..], 1e-6, true),
        ("sgal3_is_valid", &turned(two)[..], 0.0, false),
        ("so3_is_valid", &two[..], 1e-6, false),
    ] {
        list.push(Line {
            says: "is_valid of (2, 0, 0, 0)",
            request: within(tolerance, request(name, first, &[])),
            outcome: says(yes),
        });
    }
    list
}

/// A place of an answer at which another order of operations gives other bits.
pub struct Order {
    pub says: &'static str,
    pub request: Request,
    pub place: usize,
    pub bits: u64,
}

/// Inputs that tell the orders of docs/ARITHMETIC.md from others.
pub fn orders() -> Vec<Order> {
    let over = |divisor: f64, values: [f64; 4]| values.map(|value| value / divisor);
    let third = over(3.0, [0.0, 1.0, 2.0, 2.0]);
    let tiny = 2f64.powi(-537);
    let mut negative_nu = [0.0; 10];
    negative_nu[3] = -0.0;
    let mut list = Vec::new();
    let mut order = |says, name, first: &[f64], second: &[f64], place, bits| {
        let request = request(name, first, second);
        list.push(Order {
            says,
            request,
            place,
            bits,
        });
    };
    let says = "the quaternion product from the left";
    order(
        says,
        "so3_compose",
        &[0.5; 4],
        &third,
        2,
        0x3fc5_5555_5555_5555,
    );
    let (minus_one, minus_x) = ([-1.0, 0.0, 0.0, 0.0], [0.0, -1.0, 0.0, 0.0]);
    order(says, "so3_compose", &minus_one, &minus_x, 0, 0);
    let says = "the diagonal of the rotation matrix from the left";
    order(
        says,
        "so3_rotation_matrix",
        &third,
        &[],
        8,
        0xbfbc_71c7_1c71_c720,
    );
    let says = "products of the rotation matrix doubled last";
    order(
        says,
        "so3_rotation_matrix",
        &[1.0, tiny, 1.5 * tiny, 0.0],
        &[],
        1,
        4,
    );
    let says = "the cross product's signs of zero";
    order(says, "so3_act", &[1.0, 0.0, 0.0, 0.0], &[-0.0; 3], 0, 0);
    let says = "a matrix product starts with its first product";
    order(says, "sgal3_exp", &[-0.0; 10], &[], 7, 1 << 63);
    let says = "a matrix product leaves no zero out";
    order(says, "sgal3_exp", &negative_nu, &[], 7, 0);
    let says = "each value is divided by the norm";
    let seventh = over(7.0, [0.0, 2.0, 3.0, 6.0]);
    order(says, "so3_inverse", &seventh, &[], 2, 0xbfdb_6db6_db6d_b6dc);
    let says = "the quaternion's norm";
    let seventh = over(7.0, [2.0, 4.0, 5.0, 2.0]);
    order(says, "so3_inverse", &seventh, &[], 0, 0x3fd2_4924_9249_2492);
    let says = "the Jacobian adds at all nine places";
    order(says, "so3_left_jacobian", &[0.0; 3], &[], 1, 0);
    let says = "exp's values by the quotient of the sine and the half angle";
    order(
        says,
        "so3_exp",
        &[1.5, 0.0, 0.0],
        &[],
        1,
        0x3fe5_cffc_16bf_8f0e,
    );
    order(says, "so3_exp", &[1.0; 3], &[], 1, 0x3fdc_25b8_ac5d_d03f);
    let says = "exp's quaternion isn't normalised";
    order(
        says,
        "so3_exp",
        &[2.0, 0.0, 0.0],
        &[],
        0,
        0x3fe1_4a28_0fb5_068b,
    );
    let says = "the Jacobian's divisor is the squared angle times the angle";
    order(
        says,
        "so3_left_jacobian",
        &[1.0; 3],
        &[],
        1,
        0xbfcf_2a18_f345_2ece,
    );
    let says = "hat by its factor, and then by hat";
    let theta = [0.2, 0.0, 0.0];
    order(
        says,
        "so3_left_jacobian",
        &theta,
        &[],
        4,
        0x3fef_c97e_ec0d_476b,
    );
    // With no rho and the time 1, the translation is a column of M.
    let mut column = |says, column: usize, theta: [f64; 3], place, bits| {
        let mut tangent = [0.0; 10];
        tangent[3 + column] = 1.0;
        tangent[6..9].copy_from_slice(&theta);
        tangent[9] = 1.0;
        order(says, "sgal3_exp", &tangent, &[], place, bits);
    };
    let says = "M's first divisor is the angle's third power";
    column(says, 1, [1.0; 3], 0, 0xbfbb_0ccc_3363_1e36);
    let says = "M's second dividend from the left";
    column(says, 1, [1.0, 0.0, 0.0], 1, 0x3fdd_6baf_e095_f2e8);
    let says = "M's square of hat by its factor";
    column(says, 0, [2.0, 1.4, 0.0], 0, 0x3fdb_b54b_95ba_84e3);
    let number = f64::from_bits;
    let of_half = |x| [number(0x3fef_ffff_fff9_20c8), number(x), 0.0, 0.0];
    let says = "log's series, at the limit of the half angle";
    order(
        says,
        "so3_log",
        &of_half(LARGEST_OF_SERIES),
        &[],
        0,
        0x3ef4_f8b5_88e3_68f0,
    );
    let says = "log's closed form, just above it";
    order(
        says,
        "so3_log",
        &of_half(LARGEST_OF_SERIES + 1),
        &[],
        0,
        0x3ef4_f8b5_88e4_e940,
    );
    let says = "the inverse Jacobian's series, at the limit of the squared angle";
    let name = "so3_left_jacobian_inv";
    let theta = [number(LARGEST_OF_SERIES), 0.0, 0.0];
    order(says, name, &theta, &[], 4, 1f64.to_bits());
    let says = "the inverse Jacobian's closed form, just above it";
    let theta = [number(LARGEST_OF_SERIES + 1), 0.0, 0.0];
    order(says, name, &theta, &[], 4, 0x3fef_ffff_fffe_dacd);
    let says = "the inverse Jacobian's quotient by twice the angle times the sine";
    let theta = [0.5, 1.0, 0.0];
    order(says, name, &theta, &[], 1, 0x3fa5_ca9b_4bb6_4458);
    let says = "the inverse Jacobian's hat by its factor, and then by hat";
    let theta = [-1.5, 1.2, 0.0];
    order(says, name, &theta, &[], 0, 0x3feb_e6a6_af12_62df);
    let says = "log's angle over the sine, and then by each value";
    let seventh = over(7.0, [2.0, 4.0, 5.0, 2.0]);
    order(says, "so3_log", &seventh, &[], 0, 0x3ff8_719a_1c14_5418);
    let says = "the coupling by the velocity, and then by the time";
    let mut element = turned([0.8, 0.6, 0.0, 0.0]);
    (element[8], element[10]) = (1.0, 3.0);
    order(says, "sgal3_log", &element, &[], 1, 0xbff1_2f1f_464d_3dc4);
    // Inside the inverse Jacobian's series when normalised once, and outside when normalised twice.
    let q = [
        0x3ff0_0000_94ff_2419,
        0xbeca_8153_cd46_26f6,
        0x3ed0_40e0_ad82_201e,
        0,
    ]
    .map(number);
    let says = "a rotation is normalised once";
    order(says, "so3_log_jacobian", &q, &[], 8, 1f64.to_bits());
    let says = "a rotation within an element is normalised twice";
    let mut element = turned(q);
    element[9] = 1.0;
    order(says, "sgal3_log", &element, &[], 5, 0x3fef_ffff_fffe_dacb);
    let says = "a Jacobian that is a negated adjoint is opened before it is negated";
    order(says, "sgal3_inverse_jacobian", &IDENTITY, &[], 30, 1 << 63);
    order(
        says,
        "sgal3_between_jacobian_self",
        &IDENTITY,
        &IDENTITY,
        30,
        1 << 63,
    );
    list
}

/// Adjoints of which one block alone overflows, others as large that are finite, and compose's Jacobian where the velocity of
/// the inverse overflows; each in both forms.
#[rustfmt::skip]
pub fn adjoints() -> Vec<Limit> {
    let mut list = Vec::new();
    let mut adjoint = |says, element: [f64; 11], number| {
        for name in ["sgal3_adjoint", "sgal3_short_adjoint"] {
            let request = request(name, &element, &[]);
            list.push(Limit { says, request, number });
        }
    };
    const MOST: f64 = f64::MAX;
    const FAR: [f64; 3] = [0.0, MOST, -MOST];
    // a quarter turn about z, with a place of the rotation matrix above 1; an eighth about x
    let quarter = [0.70710677929904, 0.0, 0.0, 0.7071067803230247];
    let eighth = [0.9238795325112867, 0.3826834323650898, 0.0, 0.0];
    let with = |q: [f64; 4], translation: [f64; 3], velocity: [f64; 3], time| {
        let mut element = turned(q);
        element[..3].copy_from_slice(&translation);
        element[7..10].copy_from_slice(&velocity);
        element[10] = time;
        element
    };
    let none = [0.0; 3];
    adjoint("-s R", with(quarter, none, none, MOST), 5);
    adjoint("-s R, finite", with(eighth, none, none, MOST), 0);
    adjoint("hat t R", with(eighth, FAR, none, 0.0), 5);
    adjoint("s hat v", with(eighth, none, [1e200, 0.0, 0.0], 1e200), 5);
    adjoint("hat v R", with(eighth, none, FAR, 0.0), 5);
    let still = IDENTITY[3..7].try_into().expect("four values");
    adjoint("hat t R and hat v R, finite", with(still, FAR, FAR, 0.0), 0);
    for name in ["sgal3_compose_jacobian_self", "sgal3_short_compose_jacobian_self"] {
        let request = request(name, &IDENTITY, &with(eighth, none, FAR, 0.0));
        let says = "the velocity of the inverse";
        list.push(Limit { says, request, number: 5 });
    }
    list
}

/// A turn at a limit, a tolerance or an adjoint, with the number of its outcome.
pub struct Limit {
    pub says: &'static str,
    pub request: Request,
    pub number: u64,
}

/// Turns whose squared angle is a limit, or a neighbour of it, half turns, and numbers of which sine and cosine are taken.
#[rustfmt::skip]
pub fn limits() -> Vec<Limit> {
    let mut list = Vec::new();
    let mut limit = |says, name, first: &[u64], number| {
        let request = Request { first: first.to_vec(), ..request(name, &[], &[]) };
        list.push(Limit { says, request, number });
    };
    const JACOBIANS: [&str; 5] = [
        "so3_exp_jacobian", "so3_left_jacobian", "so3_right_jacobian", "so3_left_jacobian_inv", "so3_right_jacobian_inv",
    ];
    for name in &JACOBIANS[3..] {
        let says = "of the series, unless the squares are added from the right";
        let theta = [0x3ee0_05a6_75f6_0b21, 0x3eda_c4d3_f642_97ab, 0xbeaf_d1b7_0832_98a9];
        limit(says, name, &theta, 0);
        let says = "the squared angle is the limit of the series";
        let theta = [0x3ee2_ab4a_356c_e8f8, 0x3ed3_1b64_0888_66aa, 0];
        limit(says, name, &theta, 0);
    }
    // On both sides of the series' limit all are accepted, and the limit is 9.
    let further = |value: f64| f64::from_bits(value.to_bits() + 1);
    let of_series = f64::from_bits(LARGEST_OF_SERIES);
    for (says, theta, number) in [
        ("the largest theta of the series on one axis", [of_series, 0.0, 0.0], 0),
        ("the smallest theta beyond it", [further(of_series), 0.0, 0.0], 0),
        ("the squared angle is 9", [3.0, 0.0, 0.0], 0),
        ("the squared angle is 9", [-1.0, 2.0, -2.0], 0),
        ("the smallest theta outside on one axis", [0.0, 0.0, further(3.0)], 4),
        ("inside, unless the squares are added from the right", [1.36, 1.52, 2.2], 0),
        ("outside, unless the squares are added from the right", [2.2, 1.36, 1.52], 4),
        ("the squared angle overflows", [0.0, -f64::MAX, 0.0], 4),
    ] {
        let theta = bits(&theta);
        limit(says, "so3_exp", &theta, number);
        for name in JACOBIANS {
            limit(says, name, &theta, number);
        }
        let mut tangent = vec![0; 10];
        tangent[6..9].copy_from_slice(&theta);
        limit(says, "sgal3_exp", &tangent, number);
        // With these the translation overflows, and 4 comes before 5.
        for place in [0, 3, 9] {
            tangent[place] = f64::MAX.to_bits();
        }
        limit(says, "sgal3_exp", &tangent, if number == 4 { 4 } else { 5 });
    }
    for name in ["sine", "cosine"] {
        for (says, x, number) in [
            ("the largest number", 4.0, 0),
            ("the largest number", -4.0, 0),
            ("the next number", further(4.0), 4),
            ("the next number", further(-4.0), 4),
            ("the largest finite number", f64::MAX, 4),
            ("an infinity", f64::NEG_INFINITY, 2),
            ("no number", f64::NAN, 2),
            ("a zero", 0.0, 0),
            ("a zero", -0.0, 0),
            ("the least number", -5e-324, 0),
        ] {
            limit(says, name, &bits(&[x]), number);
        }
    }
    list.extend(logarithms());
    list
}

/// Rotations whose logarithm has a squared angle of 9 or nearly, half turns, and rotations at the limit of log's series.
#[rustfmt::skip]
fn logarithms() -> Vec<Limit> {
    let mut list = Vec::new();
    let mut limit = |says, name, first: &[f64], second: &[f64], number| {
        let request = request(name, first, second);
        list.push(Limit { says, request, number });
    };
    // With this cosine of the half angle the logarithm is 3 on the axis, and with the next smaller one the number after 3.
    let [sine, cosine, smaller] = [0x3fef_eb7a_9b2c_6d8b, 0x3fb2_1bd5_4fc5_f99d, 0x3fb2_1bd5_4fc5_f99c].map(f64::from_bits);
    let half = [0x3fef_ffff_fff9_20c8, 0xbeb8_fc14_cc0c_d4c5, 0x3e63_e91c_0d1f_e4de, 0xbee4_bcce_6bee_5d54].map(f64::from_bits);
    let still = [1.0, 0.0, 0.0, 0.0];
    for (says, q, number) in [
        ("the logarithm's squared angle is 9", [cosine, sine, 0.0, 0.0], 0),
        ("the logarithm's squared angle is 9", [cosine, 0.0, -sine, 0.0], 0),
        ("the logarithm's squared angle is 9", [-cosine, 0.0, 0.0, -sine], 0),
        ("the next quaternion", [smaller, sine, 0.0, 0.0], 4),
        ("the next quaternion", [smaller, 0.0, -sine, 0.0], 4),
        ("the next quaternion", [-smaller, 0.0, 0.0, -sine], 4),
        ("half a turn", [0.0, 1.0, 0.0, 0.0], 4),
        ("half a turn", [-0.0, 0.0, -1.0, 0.0], 4),
        ("half a turn", [5e-324, 0.0, 0.6, 0.8], 4),
        ("half a turn", [-5e-324, 0.0, 0.6, -0.8], 4),
        ("nearly half a turn", [1e-9, 0.8, 0.0, 0.6], 4),
        ("a whole turn", [-1.0, 0.0, -0.0, 0.0], 0),
        ("the half angle is at the limit of log's series", half, 0),
    ] {
        let element = turned(q);
        for name in ["so3_log", "so3_vee", "so3_log_jacobian"] {
            limit(says, name, &q, &[], number);
        }
        for name in ["sgal3_log", "sgal3_vee"] {
            limit(says, name, &element, &[], number);
        }
        for name in [
            "so3_minus", "so3_minus_jacobian_self", "so3_minus_jacobian_other",
            "so3_left_minus", "so3_left_minus_jacobian_self", "so3_left_minus_jacobian_other",
        ] {
            limit(says, name, &q, &still, number);
            limit(says, name, &still, &q, number);
        }
        for name in ["sgal3_minus", "sgal3_left_minus"] {
            limit(says, name, &element, &IDENTITY, number);
            limit(says, name, &IDENTITY, &element, number);
        }
        limit("the half-angle has no limit", "so3_half_angle", &q, &[], 0);
        // With this velocity and time the translation of the logarithm overflows, and 4 comes before 5.
        let mut far = element;
        far[7..].fill(f64::MAX);
        limit(says, "sgal3_log", &far, &[], if number == 4 { 4 } else { 5 });
    }
    list
}

/// Tolerances at the ends of the range and outside it, norms at the tolerance, and the place of 7 among the numbers.
#[rustfmt::skip]
pub fn tolerances() -> Vec<Limit> {
    const LEAST: f64 = 5e-324;
    const MOST: f64 = MOST_TOLERANCE;
    let mut list = Vec::new();
    let mut limit = |says, tolerance, name, first: &[f64], second: &[f64], number| {
        let request = within(tolerance, request(name, first, second));
        list.push(Limit { says, request, number });
    };
    let further = |value: f64| f64::from_bits(value.to_bits() + 1);
    let nearer = |value: f64| f64::from_bits(value.to_bits() - 1);
    let nan = |bits: u64| f64::from_bits(0x7ff0_0000_0000_0000 | bits);
    let on_axis = |w: f64| [w, 0.0, 0.0, 0.0];
    let one = on_axis(1.0);

    let says = "permitted";
    for tolerance in [LEAST, further(LEAST), f64::MIN_POSITIVE, nearer(MOST), MOST] {
        limit(says, tolerance, "so3_try_from_quaternion_wxyz", &one, &[], 0);
        limit(says, tolerance, "sgal3_compose", &A, &B, 0);
        limit(says, tolerance, "sgal3_chain", &[], &[], 0);
    }
    let says = "not permitted";
    for tolerance in [
        0.0, -0.0, -LEAST, -TOLERANCE, -MOST, further(MOST), 1e-3, f64::MAX, f64::INFINITY, f64::NEG_INFINITY,
        nan(1), nan(1 << 51), nan(1 << 51 | 0x1234), nan(1 << 63 | 1 << 51 | 1),
    ] {
        limit(says, tolerance, "validate_so3_params", &one, &[], 7);
        limit(says, tolerance, "validate_sgal3_params", &A, &[], 7);
        limit(says, tolerance, "so3_try_from_quaternion_wxyz", &one, &[], 7);
        limit(says, tolerance, "sgal3_compose", &A, &B, 7);
        limit(says, tolerance, "sgal3_inverse", &A, &[], 7);
        limit(says, tolerance, "sgal3_chain", &[A, B].concat(), &[], 7);
        limit(says, tolerance, "sgal3_chain", &[], &[], 7);
        limit("is_valid takes any", tolerance, "so3_is_valid", &one, &[], 0);
    }

    let says = "a norm as far from 1 as the tolerance, and one further";
    for tolerance in [MOST, MOST / 2.0, 2f64.powi(-20), 2f64.powi(-40), 2f64.powi(-41), 2f64.powi(-52)] {
        let (above, below) = (1.0 + tolerance, 1.0 - tolerance);
        for (w, number) in [(above, 0), (below, 0), (further(above), 3), (nearer(below), 3)] {
            limit(says, tolerance, "validate_so3_params", &on_axis(w), &[], number);
            limit(says, tolerance, "sgal3_chain", &[A, turned(on_axis(w))].concat(), &[], number);
        }
    }

    let bad = further(MOST);
    let with_time = |time| { let mut element = A; element[10] = time; element };
    let (nan_time, late) = (with_time(f64::NAN), with_time(f64::MAX));
    let [double, large] = [2.0, 2f64.powi(512)].map(|w| turned(on_axis(w)));
    limit("1 before 7", bad, "validate_sgal3_params", &A[1..], &[], 1);
    limit("1 before 7", bad, "sgal3_chain", &[0.0], &[], 1);
    limit("2 before 7", bad, "sgal3_compose", &double, &nan_time, 2);
    limit("2 before 7", bad, "sgal3_compose", &A, &large, 2);
    limit("2 before 7", bad, "sgal3_chain", &[double, large].concat(), &[], 2);
    limit("2 of a tangent before 7", bad, "so3_plus", &one, &[f64::NAN; 3], 2);
    limit("7 before 3", bad, "sgal3_compose", &double, &A, 7);
    limit("7 before 3", bad, "sgal3_chain", &[A, double].concat(), &[], 7);
    limit("7 before 4", bad, "so3_plus", &one, &[4.0, 0.0, 0.0], 7);
    limit("7 before 5", bad, "sgal3_compose", &late, &late, 7);
    limit("7 before 5", bad, "sgal3_chain", &[late, late].concat(), &[], 7);

    // Two quaternions with norms up to 2.3e-5 from 1, and the one that compose makes of them, whose norm is 1 + 3 * 2^-52.
    let of_bits = |bits: [u64; 4]| turned(bits.map(f64::from_bits));
    let left = of_bits([0xbfe6_9e21_3060_f75e, 0x3fe6_a35e_781f_46b1, 0xbe26_2136_ecae_b478, 0xbed3_1269_624b_b5aa]);
    let right = of_bits([0xbe44_59bc_e662_3658, 0x3ff0_0005_05e6_ea9f, 0xbe57_230c_f5cd_3420, 0xbe50_e5a3_da68_d27c]);
    let answer = of_bits([0xbfe6_a33c_dc0f_b676, 0xbfe6_9dff_a349_cf45, 0xbed2_f5fe_b558_0fc1, 0xbe1a_8a9f_b933_792f]);
    let says = "the quaternion of an answer, handed in again";
    limit(says, MOST, "sgal3_compose", &left, &right, 0);
    limit(says, MOST, "so3_compose", &left[3..7], &right[3..7], 0);
    for (tolerance, number) in [(TOLERANCE, 0), (3.0 * 2f64.powi(-52), 0), (2f64.powi(-52), 3)] {
        limit(says, tolerance, "sgal3_compose", &answer, &answer, number);
        limit(says, tolerance, "sgal3_inverse", &answer, &[], number);
        limit(says, tolerance, "sgal3_chain", &answer.repeat(3), &[], number);
        limit(says, tolerance, "so3_inverse", &answer[3..7], &[], number);
    }

    // The partial elements have other norms.
    let tilted = [[0.6, 0.0, 0.8, 0.0], [0.8, 0.6, 0.0, 0.0]].map(turned);
    limit("blocks of norm 1", 2f64.powi(-60), "sgal3_chain", &tilted.concat().repeat(20), &[], 0);
    list
}
