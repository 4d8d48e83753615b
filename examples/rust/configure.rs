//! A host in Rust, without a crate, whose registers only it can access: it configures the links of a machine on the model of a chipset.
//!
//!     configure MACHINE [dry]
//!
//! It prints the report, and on its errors the registers as they are at the end. Its exit status is that of `acpiroute route`.
use std::io::Write;
use std::process::ExitCode;

mod acpiroute;
use acpiroute::{acpiroute_configure, Access, Reply, Settings, Wanted};
use acpiroute::{ANSWERED, APIC, IO, NO_REGISTER, PCI, REPLIED, TOO_SMALL, WANTED, WRITE};

/// A small model of a chipset, in place of hardware: an interrupt router with a register of one byte for each pin, and a few
/// registers behind an index register.
struct Chipset {
    /// Registers 60 to 63 of function 0 of device 1 on PCI bus 0.
    routing: [u8; 4],
    /// Port C00: which of the registers below port C01 shows.
    index: u8,
    behind: [u8; 2],
}

impl Chipset {
    /// A chipset as its firmware leaves it.
    fn reset() -> Chipset {
        Chipset { routing: [0x80; 4], index: 0, behind: [5; 2] }
    }

    fn register(&mut self, access: &Access) -> Option<&mut u8> {
        let function = (access.segment, access.bus, access.device, access.function);
        match (access.space, access.width, access.address) {
            (PCI, 8, 0x60..=0x63) if function == (0, 0, 1, 0) => Some(&mut self.routing[access.address as usize - 0x60]),
            (IO, 8, 0xC00) => Some(&mut self.index),
            (IO, 8, 0xC01) => self.behind.get_mut(usize::from(self.index)),
            _ => None,
        }
    }

    /// An access, made, with its answer.
    fn made(&mut self, wanted: Access) -> Access {
        match self.register(&wanted) {
            None => Access { answer: NO_REGISTER, ..wanted },
            Some(register) if wanted.kind == WRITE => {
                *register = wanted.value as u8;
                Access { answer: ANSWERED, ..wanted }
            }
            Some(register) => Access { value: u64::from(*register), answer: ANSWERED, ..wanted },
        }
    }
}

/// Calls until no access is wanted, making each on the chipset.
fn configure(chipset: &mut Chipset, machine: &[u8], settings: &Settings) -> Result<(Vec<u8>, Vec<u8>, u8), u32> {
    let avoid: [u32; 0] = [];
    let mut record = Vec::new();
    let (mut text, mut line) = (vec![0; 256], vec![0; 64]);
    loop {
        let (mut reply, mut wanted) = (Reply::default(), Wanted::default());
        // SAFETY: the pointers come from slices and references, so none is null, and what is filled is this function's own.
        let came = unsafe {
            acpiroute_configure(
                settings,
                avoid.as_ptr(),
                avoid.len(),
                machine.as_ptr(),
                machine.len(),
                record.as_ptr(),
                record.len(),
                text.as_mut_ptr(),
                text.len(),
                line.as_mut_ptr(),
                line.len(),
                &mut reply,
                &mut wanted,
            )
        };
        match came {
            WANTED if wanted.entry < record.len() => return Err(came),
            WANTED => record.push(chipset.made(wanted.access)),
            TOO_SMALL => (text, line) = (vec![0; reply.text_length], vec![0; reply.line_length]),
            REPLIED => {
                text.truncate(reply.text_length);
                line.truncate(reply.line_length);
                return Ok((text, line, reply.status));
            }
            other => return Err(other),
        }
    }
}

fn print_registers(chipset: &Chipset) {
    let digits = |bytes: &[u8]| bytes.iter().map(|byte| format!(" {byte:02X}")).collect::<String>();
    eprintln!("pci 0 0 1 0 60{}", digits(&chipset.routing));
    eprintln!("behind C00{}", digits(&chipset.behind));
}

fn run() -> Result<u8, String> {
    let mut words = std::env::args().skip(1);
    let name = words.next().ok_or("a machine text is wanted")?;
    let dry = words.next().is_some_and(|word| word == "dry");
    let machine = std::fs::read(&name).map_err(|error| format!("{name}: {error}"))?;
    let settings = Settings { steps: 1_000_000, mode: APIC, dry: u8::from(dry), kernel: 0, calls: 0, levels: 0 };
    let mut chipset = Chipset::reset();
    let told = |code| format!("the call came out as {code}");
    let (text, line, status) = configure(&mut chipset, &machine, &settings).map_err(told)?;
    std::io::stdout().write_all(&text).map_err(|error| error.to_string())?;
    std::io::stderr().write_all(&line).map_err(|error| error.to_string())?;
    print_registers(&chipset);
    Ok(status)
}

fn main() -> ExitCode {
    ExitCode::from(run().unwrap_or_else(|why| {
        eprintln!("host: {why}");
        98
    }))
}
