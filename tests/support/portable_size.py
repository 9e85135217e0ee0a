"""What the library for C as one pair of files takes on a processor without an operating system: its
text, its RAM, and the stack of its calls."""

import os
import re
import tempfile

from support.commands import command
from support.skipping import needs


SCRIPT = """ENTRY(use) SECTIONS {
  .text 0 : { *(.text*) *(.rodata*) }
  .data 0x20000000 : { *(.data*) } .bss : { *(.bss*) *(COMMON) }
  /DISCARD/ : { *(.ARM*) *(.comment) } }
"""
RECEIVER = """#include "ymodem.h"
static ym_receiver r; static ym_ask ask; static uint8_t bytes[2];
static void receive(void) {
    ym_receiver_init(&r, 0);
    while (r.stand.state == YM_RUNNING) {
        while (ym_receiver_wants(&r)) ym_receiver_feed(&r, bytes, 1);
        ym_receiver_hear(&r, &ask);
        ym_receiver_answer(&r, 1, bytes, sizeof bytes);
    }
}
"""
SENDER = """
static ym_sender s; static ym_fill fill; static uint64_t blocks[1]; static uint8_t body[1024];
static void send(void) {
    ym_sender_init(&s, blocks, 1);
    while (s.state == YM_SENDING) {
        if (!ym_sender_settled(&s, blocks, 1, bytes, 1)) continue;
        ym_sender_hear(&s, blocks, 1, bytes, 1, &fill);
        ym_sender_header(&s, bytes, 1, 1, 1, 1, 1);
        if (ym_sender_block(&s, body, sizeof body)) ym_sender_failed(&s, blocks, 1);
        ym_sender_out(&s, blocks, 1);
    }
}
"""
USES = {
    "receiver": RECEIVER + "void use(void);\nvoid use(void) { receive(); }\n",
    "both": RECEIVER + SENDER + "void use(void);\nvoid use(void) { receive(); send(); }\n",
}
RECEIVES = ["ym_receiver_" + it for it in ("init", "wants", "feed", "hear", "answer")]
# A line of what gcc tells of the stack: the place of a function with its name, and its frame.
FRAME = re.compile(r"^.*:(\w+)\S*\t(\d+)\t", re.M)


def deepest(source, frames, name):
    """The bytes of stack of a function with all that it calls. One that the compiler put into its
    caller has no frame of its own."""
    body = re.search(r"^[^\n;]*\b%s\([^;{]*\) \{\n(.*?)^\}" % name, source, re.M | re.S)[1]
    called = set(re.findall(r"\b(core_\w+)\(", body)) - {name}
    return frames.get(name, 0) + max([deepest(source, frames, it) for it in called] or [0])


def sizes(words, portable, use):
    """The text, the RAM without a stack, and the deepest stack of a receiver's calls."""
    compiler, *flags = words.split()
    tool = compiler.removesuffix("gcc") + "size"
    needs(tool)
    with tempfile.TemporaryDirectory(prefix="ymodem-size-") as top:
        for name, text in (("use.c", USES[use]), ("use.ld", SCRIPT)):
            with open(os.path.join(top, name), "w") as it:
                it.write(text)
        how = ["-std=c99", "-ffunction-sections", "-fdata-sections", "-fstack-usage"]
        how += ["-I", portable]
        for path in (os.path.join(portable, "ymodem.c"), "use.c"):
            command(compiler, *flags, *how, "-c", path, cwd=top)
        how = ["-nostartfiles", "-specs=nano.specs", "-Wl,--gc-sections", "-T", "use.ld"]
        command(compiler, *flags, *how, "use.o", "ymodem.o", "-o", "use.elf", cwd=top)
        text, data, rest = map(int, command(tool, "use.elf", cwd=top).splitlines()[1].split()[:3])
        with open(os.path.join(top, "ymodem.su")) as it:
            frames = {name: int(size) for name, size in FRAME.findall(it.read())}
    with open(os.path.join(portable, "ymodem.c"), encoding="utf-8") as it:
        source = it.read()
    return text, data + rest, max(deepest(source, frames, it) for it in RECEIVES)
