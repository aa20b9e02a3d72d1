//! Assembles a stream in a file to a module in another:
//!
//!   cargo run --example assemble STREAM MODULE
//!
//! A refused stream leaves the module's file alone.
use std::error::Error;
use std::{env, fs, process};

fn run(stream: &str, module: &str) -> Result<(), Box<dyn Error>> {
    Ok(fs::write(
        module,
        barrizuppa::assemble(&fs::read(stream)?)?,
    )?)
}

fn main() {
    let arguments: Vec<String> = env::args().skip(1).collect();
    let [stream, module] = &arguments[..] else {
        eprintln!("usage: assemble STREAM MODULE");
        process::exit(2);
    };
    if let Err(error) = run(stream, module) {
        eprintln!("{stream}: {error}");
        process::exit(1);
    }
}
