/* A program to load that tells how the loader left the processor: SCTLR, CPACR, and what the memory at hand is mapped as (PAR: attributes in the
   highest byte, how it is shared in bits 8 and 7). Then it uses a vector register, reads at an odd address, and turns the board off. */
        .global start
start:
        adr     x20, line
        mov     x21, #0x09000000
        mrs     x0, sctlr_el1
        bl      number
        mrs     x0, cpacr_el1
        bl      number
        at      s1e1r, x20
        isb
        mrs     x0, par_el1
        bl      number
        movi    v0.16b, #7
        str     q0, [x20, #33]
        ldr     x0, [x20, #35]
        bl      number
        adr     x1, line
1:      ldrb    w0, [x1], #1
        cbz     w0, 2f
        bl      byte
        b       1b
2:      mov     w0, #8
        movk    w0, #0x8400, lsl #16
        hvc     #0
number:
        mov     x5, x0
        mov     x6, #64
        mov     x7, x30
3:      sub     x6, x6, #4
        lsr     x0, x5, x6
        and     x0, x0, #15
        cmp     x0, #10
        add     x1, x0, #('a' - 10)
        add     x0, x0, #'0'
        csel    x0, x0, x1, lo
        bl      byte
        cbnz    x6, 3b
        mov     x0, #' '
        mov     x30, x7
byte:
        ldr     w3, [x21, #0x18]
        tbnz    w3, #5, byte
        str     w0, [x21]
        ret
line:
        .asciz  "probed\r\n"
        .skip   64
