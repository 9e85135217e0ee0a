/* Start-up on QEMU's board `virt`, RISC-V of 32 bits: the variables that begin at 0, the stack,
   painted so that its depth can be told, and then `main`. */
        .option norelax
        .section .start, "ax"
        .global start
start:
        la      sp, stack_end
        la      t0, bss
        la      t1, bss_end
1:      bgeu    t0, t1, 2f
        sw      zero, 0(t0)
        addi    t0, t0, 4
        j       1b
2:      la      t0, stack_low
        li      t1, 0xa5a5a5a5
3:      bgeu    t0, sp, 4f
        sw      t1, 0(t0)
        addi    t0, t0, 4
        j       3b
4:      call    main
5:      wfi
        j       5b
