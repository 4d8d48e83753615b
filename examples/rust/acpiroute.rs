//! The calls of the static library: what `include/acpiroute.h` declares, and says all of, for Rust.
#![allow(dead_code)]

/// How a call came out.
pub const REPLIED: u32 = 0;
pub const TOO_SMALL: u32 = 1;
pub const NO_MEMORY: u32 = 2;
pub const NOT_UTF8: u32 = 3;
pub const WANTED: u32 = 4;
pub const MALFORMED: u32 = 5;

/// Which address space an access is in.
pub const MEMORY: u8 = 0;
pub const IO: u8 = 1;
pub const PCI: u8 = 2;

/// What an access does.
pub const READ: u8 = 0;
pub const WRITE: u8 = 1;

/// How an access was answered.
pub const ANSWERED: u8 = 0;
pub const NO_REGISTER: u8 = 1;
pub const DEVICE_FAILED: u8 = 2;

/// Which interrupt controllers the machine is told that it uses.
pub const PIC: u8 = 0;
pub const APIC: u8 = 1;
/// Added to one of these for the wide profile.
pub const WIDE: u8 = 2;

/// What a call has said.
#[repr(C)]
#[derive(Default)]
pub struct Reply {
    pub text_length: usize,
    pub line_length: usize,
    pub status: u8,
}

/// An access of a register.
#[repr(C)]
#[derive(Clone, Copy, Default)]
pub struct Access {
    pub address: u64,
    pub value: u64,
    pub segment: u16,
    pub bus: u8,
    pub device: u8,
    pub function: u8,
    pub space: u8,
    pub width: u8,
    pub kind: u8,
    pub answer: u8,
}

/// An access that is wanted, and at which entry of the record.
#[repr(C)]
#[derive(Clone, Copy, Default)]
pub struct Wanted {
    pub access: Access,
    pub entry: usize,
}

/// How a machine is configured.
#[repr(C)]
pub struct Settings {
    pub steps: u64,
    pub mode: u8,
    pub dry: u8,
    pub kernel: u8,
    pub calls: u8,
    pub levels: u8,
}

/// A part of the machine's memory in which tables stand.
#[repr(C)]
pub struct Part {
    pub address: u64,
    pub bytes: *const u8,
    pub length: usize,
}

/// A call that is a command of the program: options, input, the two buffers, the reply.
pub type Command = unsafe extern "C" fn(*const u8, usize, *const u8, usize, *mut u8, usize, *mut u8, usize, *mut Reply) -> u32;

macro_rules! commands {
    ($($name:ident),*) => {
        extern "C" {
            $(pub fn $name(
                options: *const u8,
                options_length: usize,
                input: *const u8,
                input_length: usize,
                text: *mut u8,
                text_capacity: usize,
                line: *mut u8,
                line_capacity: usize,
                reply: *mut Reply,
            ) -> u32;)*
        }
    };
}

commands!(acpiroute_route, acpiroute_check, acpiroute_names, acpiroute_eval, acpiroute_why);

/// The calls over a record of accesses: settings, what the call itself takes, the record, the two buffers, the reply, the access that is
/// wanted.
macro_rules! calls_over_a_record {
    ($($name:ident($($own:ident: $of:ty),*);)*) => {
        extern "C" {
            $(pub fn $name(
                settings: *const Settings,
                $($own: $of,)*
                record: *const Access,
                record_length: usize,
                text: *mut u8,
                text_capacity: usize,
                line: *mut u8,
                line_capacity: usize,
                reply: *mut Reply,
                wanted: *mut Wanted,
            ) -> u32;)*
        }
    };
}

calls_over_a_record! {
    acpiroute_configure(avoid: *const u32, avoid_length: usize, machine: *const u8, machine_length: usize);

    acpiroute_evaluate(
        path: *const u8,
        path_length: usize,
        arguments: *const u64,
        arguments_length: usize,
        machine: *const u8,
        machine_length: usize
    );

    acpiroute_configure_tables(
        avoid: *const u32,
        avoid_length: usize,
        rsdp: u64,
        parts: *const Part,
        parts_length: usize,
        osi: *const u8,
        osi_length: usize
    );

    acpiroute_evaluate_tables(
        path: *const u8,
        path_length: usize,
        arguments: *const u64,
        arguments_length: usize,
        rsdp: u64,
        parts: *const Part,
        parts_length: usize,
        osi: *const u8,
        osi_length: usize
    );
}
