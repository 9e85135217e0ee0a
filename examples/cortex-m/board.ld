/* Code in the first memory of the board, what is written in the second, and files in the third. */
ENTRY(reset)
SECTIONS {
  .text 0 : { KEEP(*(.vectors)) *(.text*) *(.rodata*) }
  . = 0x20000000;
  .data : { *(.data*) }
  .bss (NOLOAD) : { bss = .; *(.bss*) *(COMMON) . = ALIGN(8); bss_end = .; }
  .stack (NOLOAD) : { stack_low = .; . += 12288; stack_top = .; stack_end = .; }
  room = 0x21000000;
  room_end = 0x21400000;
  /DISCARD/ : { *(.ARM*) *(.comment) }
}
