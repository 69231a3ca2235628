//! How far the answers of a program lie from those of docs/src over the machine's sine, cosine and atan2.

use requests::calls::{Answer, Call, HALF_ANGLE, Turn};
use requests::turning::{self, Band};
use requests::{Outcome, Request, refusals};
use std::collections::BTreeMap;
use std::f64::consts::PI;
use std::fmt::Write;

/// Turns for which an agreement is asked.
pub const TURNS: Band = Band::new(1.0 / 16.0, 3.0);
/// Numbers of which sine and cosine are taken.
pub const NUMBERS: Band = Band::new(0.0, 4.0);
/// Turns whose half is taken.
pub const HALVED: Band = Band::new(0.0, PI);
/// Smaller turns, and numbers, of which nothing is asked: down to where the series begins.
pub const SMALL: [Band; 5] = [
    Band::new(1.0 / 256.0, 1.0 / 16.0),
    Band::new(1.0 / 1024.0, 1.0 / 256.0),
    Band::new(1.0 / 4096.0, 1.0 / 1024.0),
    Band::new(1.0 / 8192.0, 1.0 / 4096.0),
    Band::new(1e-5, 1.0 / 8192.0),
];

/// The band in which a call has to agree.
pub fn band(call: &Call) -> Band {
    match call.turn {
        Turn::Number => NUMBERS,
        _ if call.number == HALF_ANGLE => HALVED,
        _ => TURNS,
    }
}

/// Which of the calls are measured together, by what they answer.
const GROUPS: [&str; 9] = [
    "sine and cosine",
    "half-angle",
    "SO(3) exp and plus",
    "SO(3) log and minus",
    "SO(3) Jacobians",
    "SO(3) inverse Jacobians",
    "SGal(3) exp and plus",
    "SGal(3) log and minus",
    "SGal(3) Jacobians of plus",
];

fn group(call: &Call) -> usize {
    match call.answer {
        Answer::Number if call.number == HALF_ANGLE => 1,
        Answer::Number => 0,
        Answer::Rotation => 2,
        Answer::So3Tangent => 3,
        Answer::Matrix(9) if takes_inverse(call) => 5,
        Answer::Matrix(9) => 4,
        Answer::Element => 6,
        Answer::Sgal3Tangent => 7,
        _ => 8,
    }
}

/// Whether a call of SO(3) answers an inverse Jacobian, or a product with one.
fn takes_inverse(call: &Call) -> bool {
    call.name.ends_with("_inv") || matches!(call.turn, Turn::Log(_))
}

/// What a value may be away from docs/src's: 2^-24; and sine, cosine and the half-angle themselves 2^-44. Sine and cosine are within 2^-45 of the Taylor
/// sums, and the machine's are nearer to these. The half-angle is as far off as the excess is, c times the one's error and s times the other's: 2^-44.5,
/// and some roundings of numbers below 2.
pub fn bound(call: &Call) -> f64 {
    match call.answer {
        Answer::Number => 2f64.powi(-44),
        _ => 2f64.powi(-24),
    }
}

/// How many answers were looked at, and the largest distance that was met.
#[derive(Clone, Copy, Default)]
struct Largest {
    requests: u64,
    distance: f64,
}

impl Largest {
    fn add(&mut self, distance: f64) {
        self.requests += 1;
        self.distance = self.distance.max(distance);
    }

    /// As a power of two.
    fn words(self) -> String {
        match self.distance {
            _ if self.requests == 0 => "not met".into(),
            0.0 => "0".into(),
            distance => format!("2^{:.1}", distance.log2()),
        }
    }
}

/// The largest of the distances of an answer's values. Both have to be accepted, and to have as many finite values.
pub fn distance(call: &Call, reference: &Outcome, outcome: &Outcome) -> Result<f64, String> {
    for (whose, of) in [("the reference", reference), ("the program", outcome)] {
        if of.number != 0 {
            return Err(format!("{whose} refuses with {}", of.number));
        }
        if of.values.len() != call.answer.length() {
            return Err(format!("{whose} has {} values", of.values.len()));
        }
        if refusals::overflow(&of.values).is_some() {
            return Err(format!("{whose} has a value that isn't finite"));
        }
    }
    let pairs = reference.values.iter().zip(&outcome.values);
    Ok(pairs
        .map(|(a, b)| (f64::from_bits(*a) - f64::from_bits(*b)).abs())
        .fold(0.0, f64::max))
}

/// What is found out about distances.
pub trait Distances {
    /// Looks at one answer, and says what is wrong.
    fn look(
        &mut self,
        request: &Request,
        reference: &Outcome,
        outcome: &Outcome,
    ) -> Result<(), String>;

    /// The largest ones; or what was never asked.
    fn table(&self) -> Result<String, String>;
}

/// The largest distances by call, each of which has to be within its bound.
#[derive(Default)]
pub struct Agreement {
    by_number: BTreeMap<u64, Largest>,
}

impl Distances for Agreement {
    fn look(
        &mut self,
        request: &Request,
        reference: &Outcome,
        outcome: &Outcome,
    ) -> Result<(), String> {
        let call = request.call();
        let (distance, bound) = (distance(call, reference, outcome)?, bound(call));
        if distance > bound {
            let (found, most) = (distance.log2(), bound.log2());
            return Err(format!("2^{found:.1} apart, and not within 2^{most}"));
        }
        self.by_number
            .entry(request.number)
            .or_default()
            .add(distance);
        Ok(())
    }

    /// A line for each call.
    fn table(&self) -> Result<String, String> {
        let mut text = format!("{:<40}{:>12}{:>12}\n", "call", "requests", "largest");
        for call in turning::calls() {
            let Some(largest) = self.by_number.get(&call.number) else {
                return Err(format!("{} was never asked\n", call.name));
            };
            let name = format!("{:>3} {}", call.number, call.name);
            writeln!(
                text,
                "{name:<40}{:>12}{:>12}",
                largest.requests,
                largest.words()
            )
            .unwrap();
        }
        Ok(text)
    }
}

/// The largest distances by the size of the turn and by group, of which none is too large.
#[derive(Default)]
pub struct SmallTurns {
    by_band: [[Largest; GROUPS.len()]; SMALL.len()],
}

impl Distances for SmallTurns {
    fn look(
        &mut self,
        request: &Request,
        reference: &Outcome,
        outcome: &Outcome,
    ) -> Result<(), String> {
        let call = request.call();
        let holds = |square| SMALL.iter().position(|band| band.holds(square));
        let band = turning::square(request).and_then(holds);
        let band = band.ok_or("a turn of another size")?;
        let distance = distance(call, reference, outcome)?;
        self.by_band[band][group(call)].add(distance);
        Ok(())
    }

    /// A line for each group.
    fn table(&self) -> Result<String, String> {
        let mut text = format!("{:<28}", "calls");
        let names = SMALL.map(|band| format!("{} to {}", size(band.least), size(band.most)));
        for name in &names {
            write!(text, "{name:>16}").unwrap();
        }
        text.push('\n');
        for (place, group) in GROUPS.iter().enumerate() {
            write!(text, "{group:<28}").unwrap();
            for (name, groups) in names.iter().zip(&self.by_band) {
                let largest = groups[place];
                if largest.requests == 0 {
                    return Err(format!("{group}: turns from {name} were never asked\n"));
                }
                write!(text, "{:>16}", largest.words()).unwrap();
            }
            text.push('\n');
        }
        Ok(text)
    }
}

/// A power of two as such.
fn size(size: f64) -> String {
    match size.log2() {
        exponent if exponent.fract() == 0.0 => format!("2^{exponent}"),
        _ => format!("{size:e}"),
    }
}
