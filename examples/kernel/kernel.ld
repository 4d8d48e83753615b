ENTRY(start32)
PHDRS {
    code PT_LOAD FLAGS(5);
    data PT_LOAD FLAGS(6);
    note PT_NOTE FLAGS(4);
}
SECTIONS {
    . = 0x100000;
    .note.pvh : { KEEP(*(.note.pvh)) } :code :note
    .text : { *(.text .text.*) } :code
    .rodata : { *(.rodata .rodata.*) } :code
    . = ALIGN(4096);
    .data : { *(.data .data.* .got .got.*) } :data
    .bss : { *(.bss .bss.* COMMON) } :data
    kernel_end = .;
    .tdata : { *(.tdata*) *(.tbss*) }
    ASSERT(SIZEOF(.tdata) == 0, "thread-local data is not set up")
    /DISCARD/ : { *(.comment) *(.eh_frame) *(.note.GNU-stack) *(.note.gnu.property) }
}
