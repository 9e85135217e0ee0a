/* Where a Cortex-M begins: its stack, at the end of the RAM of QEMU's board mps2-an385, and its
 * first instruction. */
extern void _start(void);
typedef void (*vector)(void);
extern const vector vectors[2];
__attribute__((section(".vectors"), used)) const vector vectors[2] = { (vector)0x20400000, _start };
