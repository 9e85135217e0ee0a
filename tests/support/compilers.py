"""Compilers for each processor, and what runs what they make."""

# gcc for x86-64 makes programs for i386 too, with gcc-12-multilib, and Linux's headers for x86-64.
WORDS_32 = "-m32 -idirafter /usr/include/x86_64-linux-gnu"
NEWLIB = " -isystem /usr/lib/arm-none-eabi/include"
PICOLIBC = " -isystem /usr/lib/picolibc/riscv64-unknown-elf/include"
# The one processor for which clang does not find gcc's folders by itself.
RISCV_64 = "riscv64-linux-gnu -isystem /usr/riscv64-linux-gnu/include"
RISCV_32 = "riscv64-unknown-elf-gcc --specs=picolibc.specs -mabi=ilp32 -march="
COMPILERS = {
    "gcc": "gcc",
    "gcc -m32": "gcc " + WORDS_32,
    "Cortex-M0+": "arm-none-eabi-gcc -mthumb -mcpu=cortex-m0plus",
    "Cortex-M3": "arm-none-eabi-gcc -mthumb -mcpu=cortex-m3",
    "ARM, Linux": "arm-linux-gnueabihf-gcc",
    "ARM, 64 bits": "aarch64-linux-gnu-gcc",
    "RISC-V, 64 bits": "riscv64-linux-gnu-gcc",
    "RV32I": RISCV_32 + "rv32i",
    "RV32IMAC": RISCV_32 + "rv32imac",
    "MIPS, little-endian": "mipsel-linux-gnu-gcc",
    "clang": "clang",
    "clang -m32": "clang " + WORDS_32,
    "Cortex-M0+, clang": "clang --target=thumbv6m-none-eabi" + NEWLIB,
    "Cortex-M3, clang": "clang --target=thumbv7m-none-eabi" + NEWLIB,
    "ARM, Linux, clang": "clang --target=arm-linux-gnueabihf",
    "ARM, 64 bits, clang": "clang --target=aarch64-linux-gnu",
    "RISC-V, 64 bits, clang": "clang --target=" + RISCV_64,
    "RV32IMAC, clang": "clang --target=riscv32-unknown-elf -march=rv32imac" + PICOLIBC,
    "MIPS, little-endian, clang": "clang --target=mipsel-linux-gnu",
}
# A program for QEMU's board of a Cortex-M3, whose standard output and words are those of QEMU.
SECTIONS = "--section-start=.vectors=0,-Ttext-segment=0x10000,-Tdata=0x20000000"
ON_A_BOARD = "arm-none-eabi-gcc -mthumb -Os --specs=rdimon.specs -Wl,%s -mcpu=" % SECTIONS
QUIET = "qemu-system-arm -M mps2-an385 -display none -monitor none -serial none"
BOARD = QUIET + " -semihosting-config enable=on,target=native"

# One for a board of RISC-V of 32 bits, in the same way.
PLACES = "__flash=0x80000000,__flash_size=0x200000,__ram=0x80200000,__ram_size=0x200000"
PLACED = "".join(",--defsym=" + it for it in PLACES.split(","))
ON_RISCV_32 = RISCV_32 + "rv32imac -Os --oslib=semihost --crt0=semihost -Wl" + PLACED
BOARD_32 = "qemu-system-riscv32 -M virt -bios none -display none -monitor none -serial none"
BOARD_32 += " -semihosting-config enable=on,target=native"

# Programs for Linux on other processors, by clang with the libraries of gcc for these.
CLANG_FOR = "clang -static -fuse-ld=lld --target="
FOLDERS = ("/usr/lib/gcc-cross/riscv64-linux-gnu/12", "/usr/riscv64-linux-gnu/lib")
ON_RISCV_64 = "clang -static --target=" + RISCV_64
ON_RISCV_64 += "".join(" -B%s -L%s" % (it, it) for it in FOLDERS)
ON_RISCV_64 += " --ld-path=/usr/bin/riscv64-linux-gnu-ld -O2"

# What plays the calls: how it is compiled, and what runs it.
RUNS = {
    "gcc -O2": ("gcc -O2", ""),
    "clang -m32 -O2": ("clang -O2 " + WORDS_32, ""),
    "gcc -m32 -Os": ("gcc -Os " + WORDS_32, ""),
    "ARM, Linux": ("arm-linux-gnueabihf-gcc -Os -static", "qemu-arm"),
    "RISC-V, 64 bits, clang": (ON_RISCV_64, "qemu-riscv64"),
    "RISC-V, 32 bits": (ON_RISCV_32, BOARD_32),
    "MIPS, little-endian": ("mipsel-linux-gnu-gcc -O2 -static", "qemu-mipsel"),
    "Cortex-M3": (ON_A_BOARD + "cortex-m3", BOARD),
}
RUNS_AT_LENGTH = {
    "gcc -O0": ("gcc -O0", ""),
    "gcc -O3, both files at once": ("gcc -O3 -flto", ""),
    "clang -O2": ("clang -O2", ""),
    "gcc -m32 -O3, both files at once": ("gcc -O3 -flto " + WORDS_32, ""),
    "ARM, Linux, clang": (CLANG_FOR + "arm-linux-gnueabihf -O2", "qemu-arm"),
    "ARM, 64 bits": ("aarch64-linux-gnu-gcc -O2 -static", "qemu-aarch64"),
    "ARM, 64 bits, clang": (CLANG_FOR + "aarch64-linux-gnu -O2", "qemu-aarch64"),
    "RISC-V, 64 bits": ("riscv64-linux-gnu-gcc -O2 -static", "qemu-riscv64"),
    "MIPS, little-endian, clang": (CLANG_FOR + "mipsel-linux-gnu -O2", "qemu-mipsel"),
    "Cortex-M0+, on the same board": (ON_A_BOARD + "cortex-m0plus", BOARD),
}
