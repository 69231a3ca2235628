//! Lists the calls.
//!
//! Prints the calls, a line for each: its number, its name, what its blocks hold, how many values it answers with and how many, all +0, stand beside a
//! refusal, and the numbers that it can be refused with, in the order of trial.

use requests::calls::{Block, CALLS, Call};

/// The refusals' numbers, in the order of trial.
const TRIED: [u64; 6] = [1, 2, 7, 3, 4, 5];

fn main() {
    println!(
        "{:>6}  {:<36} {:<26} {:>6} {:>7}  refusals",
        "number", "call", "blocks", "values", "refused"
    );
    for call in CALLS {
        let refusals: Vec<String> = TRIED
            .iter()
            .filter(|n| call.can_have(**n))
            .map(u64::to_string)
            .collect();
        println!(
            "{:>6}  {:<36} {:<26} {:>6} {:>7}  {}",
            call.number,
            call.name,
            blocks(call),
            call.answer.length(),
            call.answer.length_refused(),
            refusals.join(" ")
        );
    }
}

fn blocks(call: &Call) -> String {
    let mut held: Vec<&str> = [call.first, call.second]
        .into_iter()
        .filter_map(held)
        .collect();
    if call.has_tolerance() {
        held.push("tolerance");
    }
    if call.has_index() {
        held.push("index");
    }
    held.join(", ")
}

fn held(block: Block) -> Option<&'static str> {
    Some(match block {
        Block::Absent => return None,
        Block::Element => "element",
        Block::Rotation => "rotation",
        Block::Sgal3Tangent | Block::So3Tangent => "tangent",
        Block::Vector => "vector",
        Block::Event => "event",
        Block::Chain => "chain",
        Block::AnyElement => "any eleven values",
        Block::AnyRotation => "any four values",
        Block::Number => "number",
    })
}
