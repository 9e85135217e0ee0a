/* Where things stand in the memory of QEMU's board `virt` with 64 MiB. */
OUTPUT_ARCH(aarch64)
ENTRY(start)

PHDRS {
    code PT_LOAD FLAGS(5);
    constants PT_LOAD FLAGS(4);
    data PT_LOAD FLAGS(6);
}

SECTIONS
{
    . = 0x40100000;
    .text : { *(.start) *(.text .text.*) } :code
    .rodata : { *(.rodata .rodata.*) } :constants
    .data : { *(.data .data.*) } :data
    .bss (NOLOAD) : {
        . = ALIGN(16);
        bss = .;
        *(.bss .bss.* COMMON)
        . = ALIGN(16);
        bss_end = .;
    } :data
    .stack (NOLOAD) : {
        stack = .;
        . += 0x4000;
        stack_end = .;
    } :data
    /* What is received stands here. */
    room = 0x41000000;
    room_end = 0x44000000;
    /DISCARD/ : { *(.comment) *(.note .note.*) *(.eh_frame .eh_frame.*) *(.ARM.*) *(.gnu.*) *(.dyn*) *(.interp) }
}
