//! Writes the inputs of the programs `chain` and `chain_cases` below the folder that the argument names, and what each has to
//! print, by `model`.
mod inputs;
mod model;

use std::fs;
use std::path::Path;

fn main() -> std::io::Result<()> {
    let folder = std::env::args().nth(1).expect("the folder to write to");
    let chain = Path::new(&folder).join("chain");
    let cases = Path::new(&folder).join("chain_cases");
    fs::create_dir_all(&chain)?;
    fs::create_dir_all(cases.join("data"))?;
    fs::write(chain.join("stdin"), inputs::bench())?;
    fs::write(chain.join("stdout"), model::report(&inputs::bench()))?;
    let (mut args, mut stdout) = (String::new(), String::new());
    for case in inputs::all() {
        fs::write(cases.join("data").join(&case.name), &case.bytes)?;
        args += &format!("{}\n", case.name);
        stdout += &format!("{}\n{}", case.name, model::report(&case.bytes));
    }
    fs::write(cases.join("args"), args)?;
    fs::write(cases.join("stdout"), stdout)
}
