/* Start-up on QEMU's board `virt`, 64-bit ARM, at EL1: what compiled code of the library needs, and then `main`. */

        .section .start, "ax"
        .global start
start:
        /* FP and SIMD on: compiled code keeps bytes in vector registers. */
        mov     x0, #(3 << 20)
        msr     cpacr_el1, x0
        ldr     x0, =vectors
        msr     vbar_el1, x0

        /* The MMU on, with the memory mapped as normal memory: before that it counts as device memory, and there an access at an odd
           address faults. Addresses stay what they are. Two blocks of 1 GiB, of 39 bits of address: devices, and memory. */
        ldr     x0, =0x00ff             /* MAIR: attribute 0 normal memory, written back; attribute 1 device nGnRnE */
        msr     mair_el1, x0
        ldr     x0, =0x100803519        /* TCR: T0SZ 25, granule of 4 KiB, tables cached and shared; TTBR1 off; addresses of 36 bits */
        msr     tcr_el1, x0
        ldr     x0, =table
        msr     ttbr0_el1, x0
        dsb     sy
        tlbi    vmalle1
        ic      iallu
        dsb     sy
        isb
        mrs     x0, sctlr_el1
        ldr     x1, =0x1005             /* M, C, I */
        orr     x0, x0, x1
        bic     x0, x0, #2              /* A: an access need not be aligned */
        msr     sctlr_el1, x0
        isb

        /* The variables that begin at 0, and the stack, painted so that its depth can be told. */
        ldr     x0, =bss
        ldr     x1, =bss_end
1:      cmp     x0, x1
        b.hs    2f
        str     xzr, [x0], #8
        b       1b
2:      ldr     x0, =stack
        ldr     x1, =stack_end
        ldr     x2, =0xa5a5a5a5a5a5a5a5
3:      str     x2, [x0], #8
        cmp     x0, x1
        b.lo    3b
        mov     sp, x1
        bl      main
4:      wfe
        b       4b

/* enter(start, end): goes on at a program that was loaded. What was written is to be seen by the fetch of instructions first. */
        .text
        .global enter
enter:
        mrs     x2, ctr_el0
        ubfx    x3, x2, #16, #4
        mov     x4, #4
        lsl     x3, x4, x3              /* bytes of a line of the data cache */
        sub     x5, x3, #1
        bic     x6, x0, x5
1:      dc      cvau, x6
        add     x6, x6, x3
        cmp     x6, x1
        b.lo    1b
        dsb     ish
        ic      iallu
        dsb     ish
        isb
        ldr     x1, =stack_end
        mov     sp, x1
        br      x0

/* Every exception is one that was not meant: it is told, and that is the end. */
        .balign 2048
vectors:
        .rept   16
        mrs     x0, esr_el1
        mrs     x1, elr_el1
        mrs     x2, far_el1
        b       trap
        .balign 128
        .endr

        .section .rodata
        .balign 4096
table:
        .quad   0x0060000000000405      /* at 0: a block of device memory, not executable */
        .quad   0x0000000040000701      /* at 1 GiB: a block of normal memory, shared by the inner caches */
        .fill   510, 8, 0
