# From the PVH entry (32 bits, no paging, the start information in ebx) to kernel_main in long mode; and the stubs of all interrupts.

    .section .note.pvh, "a", @note
    .balign 4
    .long 4, 8, 18                      # XEN_ELFNOTE_PHYS32_ENTRY
    .asciz "Xen"
    .quad start32

    .text
    .code32
    .globl start32
start32:
    cli
    cld
    movl %ebx, %edi                     # the start information, for kernel_main

    # 4 GiB, each address at itself, in pages of 2 MiB: four page directories
    movl $directories, %ecx
    movl $0x83, %eax                    # present, writable, 2 MiB
1:  movl %eax, (%ecx)
    addl $8, %ecx
    addl $0x200000, %eax
    jnc 1b
    movl $(directories + 0x0003), pointers
    movl $(directories + 0x1003), pointers + 8
    movl $(directories + 0x2003), pointers + 16
    movl $(directories + 0x3003), pointers + 24
    movl $(pointers + 3), level4
    movl $level4, %eax
    movl %eax, %cr3

    movl %cr4, %eax
    orl $0x20, %eax                     # PAE
    movl %eax, %cr4
    movl $0xC0000080, %ecx              # EFER
    rdmsr
    orl $0x100, %eax                    # LME
    wrmsr
    movl %cr0, %eax
    orl $0x80000001, %eax               # PG, PE
    movl %eax, %cr0
    lgdt gdt_pointer
    ljmp $0x08, $start64

    .code64
start64:
    movw $0x10, %ax
    movw %ax, %ds
    movw %ax, %es
    movw %ax, %ss
    movq $stack_top, %rsp
    movl %edi, %edi
    xorl %ebp, %ebp
    call kernel_main
1:  hlt
    jmp 1b

    # Stubs of 16 bytes for all 256 vectors: an error code (0 where the processor pushes none), then the vector.
    .globl stubs
    .balign 16
stubs:
    .set vector, 0
    .rept 256
    .balign 16
    .if !(vector == 8 || (vector >= 10 && vector <= 14) || vector == 17 || vector == 21 || vector == 29 || vector == 30)
    pushq $0
    .endif
    pushq $vector
    jmp common
    .set vector, vector + 1
    .endr

common:
    .irp register, rax, rcx, rdx, rsi, rdi, r8, r9, r10, r11
    pushq %\register
    .endr
    cld
    leaq 72(%rsp), %rdi                 # struct frame
    call interrupt
    .irp register, r11, r10, r9, r8, rdi, rsi, rdx, rcx, rax
    popq %\register
    .endr
    addq $16, %rsp
    iretq

    .data
    .balign 16
gdt:
    .quad 0
    .quad 0x00AF9A000000FFFF            # code, 64 bits
    .quad 0x00CF92000000FFFF            # data
gdt_pointer:
    .word . - gdt - 1
    .quad gdt

    .bss
    .balign 4096
level4:      .skip 4096
pointers:    .skip 4096
directories: .skip 4 * 4096
    .globl stack_bottom, stack_top
stack_bottom:
    .skip (128 + 16) << 10              # 128 KiB for a call (docs/EMBEDDING.md), 16 for the kernel and its interrupts
stack_top:
    .section .note.GNU-stack, "", @progbits
