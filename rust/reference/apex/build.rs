//! Copies docs/src to the build's own folder with our sine, cosine and half-angle in the place of the machine's sine,
//! cosine and atan2, and with nothing else changed.

mod docs_src;

use docs_src::Replacement;

/// Every place where docs/src takes the sine or the cosine of a number, itself or within `from_scaled_axis`, or an
/// angle by atan2. Its constructors from an axis or from Euler angles and slerp take them elsewhere: no compared call
/// uses these.
#[rustfmt::skip]
const REPLACEMENTS: [Replacement; 7] = [
    Replacement { file: "so3", old: "theta.sin()", new: "trigonometry::sine(theta)", times: 2 },
    Replacement { file: "so3", old: "theta.cos()", new: "trigonometry::cosine(theta)", times: 2 },
    Replacement { file: "so3", old: "UnitQuaternion::from_scaled_axis(", new: SCALED_AXIS, times: 3 },
    Replacement { file: "so3", old: "f64::atan2(-sin_angle, -cos_angle)", new: "-trigonometry::half_angle(sin_angle, cos_angle.abs())", times: 1 },
    Replacement { file: "so3", old: "f64::atan2(sin_angle, cos_angle)", new: "trigonometry::half_angle(sin_angle, cos_angle.abs())", times: 1 },
    Replacement { file: "sgal3", old: "w.sin()", new: "trigonometry::sine(w)", times: 1 },
    Replacement { file: "sgal3", old: "w.cos()", new: "trigonometry::cosine(w)", times: 1 },
];
const SCALED_AXIS: &str =
    "UnitQuaternion::from_scaled_axis_by(trigonometry::sine, trigonometry::cosine, ";

/// Other ways to take one, in any of the files.
const ABSENT: [&str; 10] = [
    ".sin()",
    ".cos()",
    ".tan()",
    "f64::sin",
    "f64::cos",
    "f64::tan",
    "sin_cos",
    ".atan2(",
    "f64::atan2",
    "UnitQuaternion::from_scaled_axis(",
];

fn main() {
    docs_src::copy(&REPLACEMENTS, &ABSENT);
}
