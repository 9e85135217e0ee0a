"""A line that somebody types into a shell, and what the shell's completion makes of it."""

import contextlib
import os
import tempfile

from support.program import ROOT
from support.terminal import UnderTerminal

COMPLETION = os.path.join(ROOT, "share", "completion")
READY = "ready> "
# Keys that the shells are told to heed: one has all that fits typed, and one shows the whole line.
ALL_THAT_FITS, SHOW = b"\x14", b"\x07"
BEGIN, END = b"{{", b"}}"
BASH = """PS1='%s'
bind '"\\C-t": insert-completions'
bind -x '"\\C-g": printf "{{%%s}}" "$READLINE_LINE"'
for it in %s/*.bash; do source "$it"; done
"""
ZSH = """PS1='%s'
fpath=(%s $fpath)
autoload -U compinit && compinit -D -u
zle -C all-that-fits complete-word _generic
zstyle ':completion:all-that-fits::::' completer _all_matches _complete
zstyle ':completion:all-that-fits:*' insert true
show() { print -rn -- "{{$BUFFER}}" }
zle -N show
bindkey '^T' all-that-fits
bindkey '^G' show
"""
SHELLS = {
    "bash": ("bashrc", BASH, ["bash", "--noprofile", "--rcfile", "bashrc", "-i"]),
    "zsh": (".zshrc", ZSH, ["zsh", "-d", "-i"]),
}


@contextlib.contextmanager
def typing(shell, folder):
    """A shell at a terminal of its own, in this folder, with the completion and nothing else of
    whoever runs it."""
    name, text, words = SHELLS[shell]
    with tempfile.TemporaryDirectory(prefix="ymodem-shell-") as home:
        path = os.path.join(home, name)
        with open(path, "w", encoding="utf-8") as it:
            it.write(text % (READY, COMPLETION))
        of_home = {"HOME": home, "ZDOTDIR": home, "INPUTRC": os.devnull}
        env = {**os.environ, **of_home, "TERM": "dumb", "LC_ALL": "C"}
        words = [path if it == name else it for it in words]
        shown = UnderTerminal(words, cwd=folder, env=env)
        try:
            shown.sees(READY.encode())
            yield shown
        finally:
            shown.stop()


def completed(shell, folder, line):
    """The line with all that fits at its end, as the shell has it then."""
    with typing(shell, folder) as shown:
        shown.type(line.encode() + ALL_THAT_FITS + SHOW)
        shown.sees(BEGIN)
        return shown.until(END).decode().rstrip()
