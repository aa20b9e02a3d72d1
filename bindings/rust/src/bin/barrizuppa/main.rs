//! The program `barrizuppa`: assembles streams, shows them, and explains why one
//! is refused. `barrizuppa help` says how it is used.
mod arguments;
#[cfg(feature = "library")]
mod assemble;
#[cfg(feature = "library")]
mod batch;
mod files;

use arguments::{Arguments, Command};
use barrizuppa::explain::words;
use std::process::ExitCode;

/// How a command ends: status 0, or 1 where a stream was refused.
#[derive(Clone, Copy, Debug, PartialEq, Eq)]
enum End {
    Fine,
    Refused,
}

/// Wrong use, or a file that cannot be read or written: status 2.
struct Trouble(String);

type Run = Result<End, Trouble>;

fn main() -> ExitCode {
    let given = std::env::args_os().skip(1).collect();
    match arguments::parse(given).and_then(run) {
        Ok(End::Fine) => ExitCode::SUCCESS,
        Ok(End::Refused) => ExitCode::from(1),
        Err(Trouble(message)) => {
            eprintln!("barrizuppa: {message}");
            ExitCode::from(2)
        }
    }
}

fn run(command: Command) -> Run {
    match command {
        Command::Say(text) => files::print(text.as_bytes()),
        Command::Account(arguments) => account(&arguments),
        Command::Number(number) => number_in_words(number),
        #[cfg(feature = "library")]
        Command::Assemble(arguments) if arguments.all => batch::run(&arguments),
        #[cfg(feature = "library")]
        Command::Assemble(arguments) => assemble::assemble(&arguments),
        #[cfg(feature = "library")]
        Command::Explain(arguments) => assemble::explain(&arguments),
        #[cfg(not(feature = "library"))]
        Command::Assemble(_) | Command::Explain(_) => Err(Trouble(
            "built without the assembler: build it with the feature `library`".to_string(),
        )),
    }
}

/// The records of a stream. Where it cannot be read, those up to the fault.
fn account(arguments: &Arguments) -> Run {
    let stream = files::read(arguments)?;
    let account = barrizuppa::stream::account(&stream);
    files::write(arguments, account.to_string().as_bytes())?;
    let Some(fault) = account.fault else {
        return Ok(End::Fine);
    };
    eprintln!("barrizuppa: {}: {fault}", files::name(arguments));
    Ok(End::Refused)
}

/// A refusal's number without a stream.
fn number_in_words(number: u32) -> Run {
    let words = words(number).ok_or(Trouble(format!("there is no refusal {number}")))?;
    let text = format!(
        "refused {number}: {}\n\n{}\n\nWhat to do: {}\n",
        words.title, words.meaning, words.advice
    );
    files::print(text.as_bytes())
}
