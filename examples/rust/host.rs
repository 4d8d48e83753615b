//! A host in Rust, without a crate: routes the machine of a machine text, prints the report, and lets `check` judge it.
//!
//!     host MACHINE [OPTION]..
//!
//! Its output, its error line and its exit status are those of `acpiroute route OPTION.. < MACHINE`. Where `check` says no to the
//! report, which it never does, the status is 99.
use std::io::Write;
use std::process::ExitCode;

mod acpiroute;
use acpiroute::{acpiroute_check, acpiroute_route, Command, Reply, REPLIED, TOO_SMALL};

struct Answer {
    text: Vec<u8>,
    line: Vec<u8>,
    status: u8,
}

/// Makes a call: with little room at first, and with what it asks for where that is too small.
fn ask(command: Command, options: &[u8], input: &[u8]) -> Result<Answer, u32> {
    let mut text = vec![0; 256];
    let mut line = vec![0; 64];
    loop {
        let mut reply = Reply::default();
        // SAFETY: the pointers come from slices, so none is null, and the buffers and the reply are this function's own.
        let came = unsafe {
            command(
                options.as_ptr(),
                options.len(),
                input.as_ptr(),
                input.len(),
                text.as_mut_ptr(),
                text.len(),
                line.as_mut_ptr(),
                line.len(),
                &mut reply,
            )
        };
        match came {
            REPLIED => {
                text.truncate(reply.text_length);
                line.truncate(reply.line_length);
                return Ok(Answer { text, line, status: reply.status });
            }
            TOO_SMALL => {
                text = vec![0; reply.text_length];
                line = vec![0; reply.line_length];
            }
            other => return Err(other),
        }
    }
}

fn run() -> Result<u8, String> {
    let mut words = std::env::args().skip(1);
    let name = words.next().ok_or("a machine text is wanted")?;
    let options = words.collect::<Vec<_>>().join(" ");
    let machine = std::fs::read(&name).map_err(|error| format!("{name}: {error}"))?;
    let told = |code| format!("the call came out as {code}");
    let report = ask(acpiroute_route, options.as_bytes(), &machine).map_err(told)?;
    std::io::stdout().write_all(&report.text).map_err(|error| error.to_string())?;
    std::io::stderr().write_all(&report.line).map_err(|error| error.to_string())?;
    if report.status == 0 || report.status == 3 {
        let verdict = ask(acpiroute_check, b"", &report.text).map_err(told)?;
        if verdict.status != 0 {
            return Ok(99);
        }
    }
    Ok(report.status)
}

fn main() -> ExitCode {
    ExitCode::from(run().unwrap_or_else(|why| {
        eprintln!("host: {why}");
        98
    }))
}
