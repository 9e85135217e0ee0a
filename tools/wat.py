"""The text of a WebAssembly module, as wasm-opt writes it, in lists of lists and words."""

import re

TOKEN = re.compile(r'"(?:[^"\\]|\\.)*"|[()]|[^\s()"]+')
COMMENT = re.compile(r";;[^\n]*|\(;.*?;\)", re.S)
HEADS = ("export", "type", "param", "result", "local")


def parsed(text):
    """A module as lists of lists and words."""
    open_ = [[]]
    for word in TOKEN.findall(COMMENT.sub("", text)):
        if word == "(":
            open_.append([])
        elif word == ")":
            last = open_.pop()
            open_[-1].append(last)
        else:
            open_[-1].append(word)
    return open_[0][0]


def written(it):
    """The text of this, as wasm-opt reads it again."""
    return it if isinstance(it, str) else "(%s)" % " ".join(map(written, it))


def is_list(it):
    return isinstance(it, list)


def assigns(it):
    return it[0] in ("local.set", "local.tee")


def all_of(it):
    """All lists in this one, itself among them."""
    yield it
    for below in filter(is_list, it):
        yield from all_of(below)


class Function:
    """A function of a module: what it says of its names, and what it does."""

    def __init__(self, text):
        self.name = text[1]
        inner = [it for it in text[2:] if is_list(it)]
        self.heads = [it for it in inner if it[0] in HEADS and it[0] != "type"]
        self.body = inner[len(inner) - len([it for it in inner if it[0] not in HEADS]) :]
        named = [it for it in self.heads if it[0] in ("param", "local")]
        self.types = {it[1]: it[2] for it in named}
        self.params = [it[1] for it in named if it[0] == "param"]
        results = [it[1] for it in self.heads if it[0] == "result"]
        self.result = results[0] if results else None

    def all(self):
        for part in self.body:
            yield from all_of(part)

    def assigned(self):
        return [it for it in self.all() if assigns(it)]

    def answers(self):
        """Each part whose value the function answers."""
        if self.result is None:
            return []
        returned = [it[1] for it in self.all() if it[0] == "return"]
        return [*returned, self.body[-1]]

    def text(self):
        return ["func", self.name, *self.heads, *self.body]
