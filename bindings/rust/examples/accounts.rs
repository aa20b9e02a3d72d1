//! The accounts of many streams, for tools/compare/check_users.py:
//!
//!   cargo run --example accounts --no-default-features < STREAMS
//!
//! The streams come in the batch form (tools/models/batch.rs). Of each it prints
//! a line, `records N` or `refused N at R`, the account, and an empty line. What
//! is read is also written again: with other bytes the line says so.
#[path = "../../../tools/models/batch.rs"]
mod batch;

use barrizuppa::stream::{account, Account, Writer};
use std::io::{self, Read, Write};

/// The first line of a stream's account.
fn line(stream: &[u8], account: &Account<'_>) -> String {
    let mut writer = Writer::new();
    for row in &account.rows {
        writer.record(&row.record.content);
    }
    let read = stream.len() - account.rest.len();
    match (account.fault, writer.finish()) {
        (None, Ok(again)) if again == stream => format!("records {}", account.rows.len()),
        (None, _) => "other bytes when written again".to_string(),
        // What was read before the fault may end in an open body.
        (Some(_), Ok(again)) if again != stream[..read] => {
            "other bytes when written again".to_string()
        }
        (Some(fault), _) => {
            format!(
                "refused {} at {}",
                fault.refusal.number, fault.refusal.record
            )
        }
    }
}

fn main() -> io::Result<()> {
    let mut set = Vec::new();
    io::stdin().read_to_end(&mut set)?;
    let mut out = io::BufWriter::new(io::stdout());
    let broken = || io::Error::new(io::ErrorKind::InvalidData, "the batch is broken");
    for stream in batch::unpack(&set).ok_or_else(broken)? {
        let account = account(stream);
        writeln!(out, "{}\n{account}", line(stream, &account))?;
    }
    Ok(())
}
