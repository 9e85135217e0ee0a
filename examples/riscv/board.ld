/* Where things stand in the memory of QEMU's board `virt`, RISC-V, with 64 MiB. */
OUTPUT_ARCH(riscv)
ENTRY(start)
PHDRS { code PT_LOAD FLAGS(5); data PT_LOAD FLAGS(6); }
SECTIONS {
  .text 0x80000000 : { KEEP(*(.start)) *(.text*) *(.rodata*) *(.srodata*) } :code
  . = ALIGN(4096);
  .data : { *(.data*) *(.sdata*) } :data
  .bss (NOLOAD) : { bss = .; *(.sbss*) *(.bss*) *(COMMON) . = ALIGN(16); bss_end = .; } :data
  .stack (NOLOAD) : { stack_low = .; . += 12288; stack_end = .; } :data
  room = 0x81000000;
  room_end = 0x84000000;
  /DISCARD/ : { *(.comment) *(.eh_frame*) *(.riscv*) }
}
