/* A program to load: it stands wherever it is put, prints a line, and turns the board off. */
        .global start
start:
        adr     x1, line
        mov     x2, #0x09000000         /* the serial port, which the loader has set up */
1:      ldrb    w0, [x1], #1
        cbz     w0, 3f
2:      ldr     w3, [x2, #0x18]
        tbnz    w3, #5, 2b              /* no room */
        str     w0, [x2]
        b       1b
3:      mov     w0, #8
        movk    w0, #0x8400, lsl #16    /* PSCI: SYSTEM_OFF */
        hvc     #0
4:      wfe
        b       4b
line:
        .asciz  "hello: this program came by YMODEM\r\n"
