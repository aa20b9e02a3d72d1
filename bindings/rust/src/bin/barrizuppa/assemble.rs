//! The commands that ask the assembler of one stream.
use crate::arguments::Arguments;
use crate::{files, End, Run, Trouble};
use barrizuppa::{Assembler, Refusal};
use std::io::{self, IsTerminal};

/// The module of a stream, by the call that is meant. Another way of assembling
/// has its place here.
pub fn module<'a>(
    assembler: &'a mut Assembler,
    arguments: &Arguments,
    stream: &[u8],
) -> Result<&'a [u8], Refusal> {
    match (arguments.strict, arguments.names) {
        (false, false) => assembler.assemble(stream),
        (false, true) => assembler.assemble_names(stream),
        (true, false) => assembler.assemble_strict(stream),
        (true, true) => assembler.assemble_strict_names(stream),
    }
}

/// The module of a stream; nothing on a refusal.
pub fn assemble(arguments: &Arguments) -> Run {
    if arguments.output.is_none() && io::stdout().is_terminal() {
        let advice = "a module is no text for a terminal: name a file by -o, or redirect";
        return Err(Trouble(advice.to_string()));
    }
    let stream = files::read(arguments)?;
    match module(&mut Assembler::new(), arguments, &stream) {
        Ok(module) => files::write(arguments, module),
        Err(refusal) => {
            eprintln!("barrizuppa: {}: {refusal}", files::name(arguments));
            if let Some(path) = &arguments.input {
                let strictly = if arguments.strict { "--strict " } else { "" };
                eprintln!(
                    "barrizuppa: `barrizuppa explain {strictly}{}` says more",
                    path.display()
                );
            }
            Ok(End::Refused)
        }
    }
}

/// Why a stream is refused, as text or as a page.
pub fn explain(arguments: &Arguments) -> Run {
    let stream = files::read(arguments)?;
    let name = files::name(arguments);
    match module(&mut Assembler::new(), arguments, &stream) {
        Ok(module) => {
            let records = barrizuppa::stream::Reader::new(&stream).count();
            eprintln!(
                "barrizuppa: {name}: not refused: {records} records, a module of {} bytes",
                module.len()
            );
            Ok(End::Fine)
        }
        Err(refusal) => {
            let explained = barrizuppa::explain::explain(&stream, refusal);
            let text = match arguments.html {
                true => explained.html(&name),
                false => format!("{name}: {explained}"),
            };
            files::write(arguments, text.as_bytes())?;
            Ok(End::Refused)
        }
    }
}
