//! Where streams come from and where answers go.
use crate::arguments::Arguments;
use crate::{End, Run, Trouble};
use std::fs::{self, File};
use std::io::{self, ErrorKind, Read, Write};

/// What messages call the stream.
pub fn name(arguments: &Arguments) -> String {
    match &arguments.input {
        Some(path) => path.display().to_string(),
        None => "standard input".to_string(),
    }
}

/// The stream.
pub fn read(arguments: &Arguments) -> Result<Vec<u8>, Trouble> {
    // A longer one is refused as such, however long it is.
    let limit = 2 * barrizuppa::STREAM_BYTES as u64;
    let mut stream = Vec::new();
    match &arguments.input {
        Some(path) => File::open(path).and_then(|file| file.take(limit).read_to_end(&mut stream)),
        None => io::stdin().take(limit).read_to_end(&mut stream),
    }
    .map_err(|error| Trouble(format!("{}: {error}", name(arguments))))?;
    Ok(stream)
}

/// To the output file, or to standard output.
pub fn write(arguments: &Arguments, bytes: &[u8]) -> Run {
    match &arguments.output {
        None => print(bytes),
        Some(path) => fs::write(path, bytes)
            .map(|()| End::Fine)
            .map_err(|error| Trouble(format!("{}: {error}", path.display()))),
    }
}

/// To standard output. A reader that has seen enough is no trouble.
pub fn print(bytes: &[u8]) -> Run {
    let mut out = io::stdout().lock();
    match out.write_all(bytes).and_then(|()| out.flush()) {
        Err(error) if error.kind() != ErrorKind::BrokenPipe => {
            Err(Trouble(format!("standard output: {error}")))
        }
        _ => Ok(End::Fine),
    }
}
