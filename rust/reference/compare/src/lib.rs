//! What the programs `compare`, `agree`, `draw` and `sample` share: random requests with the reference's answers, counts of outcomes by call,
//! distances between answers, a program that is asked, and a request and an outcome in words.

pub mod distances;
pub mod program;

use requests::generators::Generator;
use requests::refusals::NUMBERS;
use requests::{CALLS, Call, Outcome, Request};
use std::fmt::Write;

/// Random requests and the reference's answers. These are taken up as later inputs, so that the requests depend on the seed alone.
pub struct Drawn {
    generator: Generator,
    pub request: Request,
    pub outcome: Outcome,
}

impl Drawn {
    pub fn new(seed: u64) -> Self {
        Drawn {
            generator: Generator::new(seed),
            request: Request::default(),
            outcome: Outcome::default(),
        }
    }

    /// Draws the next request and answers it.
    pub fn draw(&mut self) {
        self.generator.draw(&mut self.request);
        answers::answer(&self.request, &mut self.outcome);
        self.generator.learn(self.request.call(), &self.outcome);
    }
}

/// For every call, how many requests had each outcome, in the order of [`NUMBERS`].
pub struct Counts {
    by_number: Vec<[u64; NUMBERS.len()]>,
}

impl Default for Counts {
    fn default() -> Self {
        let most = CALLS.iter().map(|call| call.number).max().unwrap_or(0);
        Counts {
            by_number: vec![[0; NUMBERS.len()]; most as usize + 1],
        }
    }
}

impl Counts {
    pub fn add(&mut self, call: u64, outcome: u64) {
        self.by_number[call as usize][place(outcome)] += 1;
    }

    /// How many requests of this call had this outcome.
    pub fn count(&self, call: &Call, outcome: u64) -> u64 {
        self.by_number[call.number as usize][place(outcome)]
    }

    pub fn total(&self) -> u64 {
        self.by_number.iter().flatten().sum()
    }

    /// A line for each call, and the sum of all. A dash stands where a call can't have the outcome.
    pub fn table(&self) -> String {
        let mut text = String::new();
        let mut line = |name: &str, cells: [String; NUMBERS.len() + 1]| {
            write!(text, "{name:<36}").unwrap();
            for cell in cells {
                write!(text, "{cell:>12}").unwrap();
            }
            text.push('\n');
        };
        line(
            "call",
            std::array::from_fn(|place| match place {
                0 => "requests".into(),
                _ => NUMBERS[place - 1].to_string(),
            }),
        );
        for call in CALLS {
            let counts = self.by_number[call.number as usize];
            let cell = |place: usize| match place {
                0 => counts.iter().sum::<u64>().to_string(),
                _ if counts[place - 1] == 0 && !call.can_have(NUMBERS[place - 1]) => "-".into(),
                _ => counts[place - 1].to_string(),
            };
            let name = format!("{:>3} {}", call.number, call.name);
            line(&name, std::array::from_fn(cell));
        }
        let sum = |place: usize| match place {
            0 => self.total(),
            _ => self.by_number.iter().map(|counts| counts[place - 1]).sum(),
        };
        line(
            "    all",
            std::array::from_fn(|place| sum(place).to_string()),
        );
        text
    }

    /// What a call can have and has not had, or has had and can't have.
    pub fn unexpected(&self) -> Vec<String> {
        let mut found = Vec::new();
        for call in CALLS {
            for number in NUMBERS {
                let met = self.count(call, number) > 0;
                if met != call.can_have(number) {
                    let words = if met { "met" } else { "not met" };
                    found.push(format!("{}: outcome {number} {words}", call.name));
                }
            }
        }
        found
    }
}

fn place(outcome: u64) -> usize {
    let place = NUMBERS.iter().position(|number| *number == outcome);
    place.expect("an outcome has a number of the list")
}

/// A request in full: every value as bits and as a decimal.
pub fn describe_request(request: &Request) -> String {
    let call = request.call();
    let mut text = format!("request: call {} {}\n", call.number, call.name);
    let (first, second) = (request.first.len(), request.second.len());
    writeln!(text, "  lengths {first} and {second}").unwrap();
    if call.has_tolerance() {
        value(&mut text, "tolerance", request.extra);
    } else {
        writeln!(text, "  extra word {}", request.extra).unwrap();
    }
    for (block, values) in [("first", &request.first), ("second", &request.second)] {
        for (place, bits) in values.iter().enumerate() {
            value(&mut text, &format!("{block} {place:>2}"), *bits);
        }
    }
    text
}

/// An outcome in full. `whose` begins it.
pub fn describe_outcome(whose: &str, outcome: &Outcome) -> String {
    let mut text = format!("{whose}: outcome {}\n", outcome.number);
    match outcome.number {
        3 => value(&mut text, "norm", outcome.figures[0]),
        _ => writeln!(text, "  figures {:?}", outcome.figures).unwrap(),
    }
    writeln!(text, "  values {}", outcome.values.len()).unwrap();
    for (place, bits) in outcome.values.iter().enumerate() {
        value(&mut text, &format!("value {place:>2}"), *bits);
    }
    text
}

fn value(text: &mut String, name: &str, bits: u64) {
    writeln!(text, "  {name} {bits:016X} {:e}", f64::from_bits(bits)).unwrap();
}
