"""Edits of a crate, as their files say them, and the functions that they change.

An edit is a file with a line `file: src/lib.rt`, and pairs of lines `old: TEXT` and `new: TEXT`.
Each old text stands in that file exactly once. Further pairs apply to what the earlier ones made.
One of a definition may have a line `refuses: laws::LAW`, the function that is to be refused for it.
One with a line `takes: long` is tried where its crate is named.

The prover tells a verdict of each function, by a name: `crate::module::function`, and for a method
`crate::module::Type::method`, where the module is the type's own. A trait's method has the part
`TypeTrait`, with the trait's parameters behind it, and a closure a part `fn` ahead of its function.
So the function of a text is looked for among the names that the prover told. Where several of them
fit it equally well, it counts as all of these.
"""

import os
import re

PARTS = ("src/", "specs/", "proofs/")
OPENS = {"{": "}", "(": ")", "[": "]"}
# Comments, strings and characters, whose braces are no code's. A lifetime is no character.
BLANK = re.compile(
    r"""//[^\n]*|/\*.*?\*/"""
    r"""|(?<!\w)b?r(#*)".*?"\1|b?"(?:\\.|[^"\\])*"|(?<!\w)b?'(?:\\[^\n]+?|[^\\\n'])'""",
    re.S,
)
TOKEN = re.compile(
    r"[{(\[;]|\bfn\s+(\w+)|\bmod\s+(\w+)|\btrait\s+(\w+)|\bimpl\b|\bmacro_rules\b"
)
# What stands ahead of the braces of a clause, between a function's head and its body.
CLAUSE = re.compile(r"\b(requires|ensures|ghost)\b[^{}]*$")
REFUSES = re.compile(r"^refuses: (.*)$", re.M)
LONG = re.compile(r"^takes: long$", re.M)
# The types that a file declares.
TYPE = re.compile(r"\b(?:struct|enum|union)\s+(\w+)")
CYCLE = re.compile(r"#\s*\[\s*cycle\s*\(\s*(\w+)\s*\)")


class Unfit(Exception):
    """An edit that cannot be applied, and why."""


class Changes:
    """What an edit makes of a function: the file that it stands in, the text of that ahead of it,
    and the function with it."""

    def __init__(self, path, was, function, text):
        self.path, self.was, self.function, self.text = path, was, function, text


class Edit:
    """An edit, as its file says it."""

    # Where the files stand that it may change.
    parts = PARTS

    def __init__(self, file):
        self.file, self.name = file, os.path.basename(file)
        with open(file, encoding="utf-8", errors="replace") as it:
            self.text = it.read()
        # What look() finds: the functions, whether others may be judged otherwise for it, and what
        # it makes of the one function whose copy can have it too.
        self.functions, self.is_alone, self.changes, self.names = [], False, None, set()
        # The functions that are to be refused for an edit of a definition, by their paths.
        self.laws = [it.strip() for it in REFUSES.findall(self.text)]
        self.is_long = bool(LONG.search(self.text))

    def pairs(self):
        path, old = "", None
        for line in self.text.split("\n"):
            if line.startswith("file: "):
                path = line[len("file: ") :].strip()
            elif line.startswith("old: "):
                old = line[len("old: ") :]
            elif line.startswith("new:"):
                if not path.startswith(self.parts) or os.path.normpath(path) != path:
                    raise Unfit("no 'file:' line names a file of src/, specs/ or proofs/")
                if not old:
                    raise Unfit("a 'new:' line has no 'old:' line ahead of it")
                yield path, old, line[len("new:") :].removeprefix(" ")
                old = None

    def steps(self, texts, folder):
        """Applies the pairs in turn to the texts of the files so far. Gives the path and the text
        ahead of each, and the pair."""
        for path, old, new in self.pairs():
            if path not in texts:
                if not os.path.isfile(os.path.join(folder, path)):
                    raise Unfit("there is no file %s" % path)
                with open(os.path.join(folder, path), encoding="utf-8") as it:
                    texts[path] = it.read()
            was = texts[path]
            found = was.count(old)
            if found != 1:
                raise Unfit("an 'old:' text is in %s %d times, and not once" % (path, found))
            texts[path] = was.replace(old, new)
            yield path, was, old, new

    def applied(self, texts, folder):
        """The texts with this edit too."""
        made = dict(texts)
        for _ in self.steps(made, folder):
            pass
        return made

    def look(self, folder):
        """Finds the functions that it changes. An edit of anything but a function's body is to be
        tried alone: of a constant, a definition, a contract, or a function that constants call."""
        texts = {}
        steps = list(self.steps(texts, folder))
        if not steps:
            raise Unfit("it has no 'old:' and 'new:' pair")
        self.functions = []
        for path, was, old, new in steps:
            first, last = changed(was.index(old), old, new)
            inside = [it for it in functions_of(path, was) if it.start <= first and last <= it.end]
            self.functions += inside
            self.is_alone |= not all(it.body < first and not it.is_const for it in inside)
            self.is_alone |= not inside
        self.changes = None if self.is_alone else self.changes_of_one(steps, texts)

    def all_names(self, crate, told):
        """The prover's names of the functions that it changes."""
        return {name for it in self.functions for name in it.names(crate, told)}

    def stands(self):
        """The paths of what the prover has to judge for it. One is empty where that is the crate."""
        if self.is_alone:
            return self.laws or [""]
        return [it.stands() for it in self.functions]

    def places(self):
        """The functions that it changes, each with its file."""
        return zip((path for path, _, _ in self.pairs()), self.functions)

    def changes_of_one(self, steps, texts):
        """What it makes of the one function that it changes, if a copy can stand for that."""
        (path, was, *_), first = steps[0], self.functions[0]
        places = [(step[0], it.start) for step, it in zip(steps, self.functions)]
        is_one = len(self.functions) == len(steps) and len(set(places)) == 1
        if not is_one or first.is_of_trait or first.cycle:
            return None
        end = first.end + len(texts[path]) - len(was)
        return Changes(path, was, first, texts[path][first.start : end])


def read(path):
    with open(path, encoding="utf-8") as it:
        return it.read()


def write(path, text):
    with open(path, "w", encoding="utf-8") as it:
        it.write(text)


def changed(at, old, new):
    """From where to where an old text that begins here differs from the new one."""
    ahead = len(os.path.commonprefix([old, new]))
    behind = len(os.path.commonprefix([old[ahead:][::-1], new[ahead:][::-1]]))
    return at + ahead, at + len(old) - behind


class Function:
    """A function of a text: the parts of its path, where it begins with its attributes, where its
    body opens, and where it ends."""

    def __init__(self, path, start, body, end, head, is_of_trait=False):
        self.path, self.start, self.body, self.end = path, start, body, end
        # Where its name ends. A function of a trait, or of an impl of one, stands for no other one.
        self.named, self.is_of_trait = start + len(head), is_of_trait
        modules = [it for it in path[:-1] if isinstance(it, str)]
        cycle = CYCLE.search(head)
        # Functions that call one another have one proof.
        self.cycle = [*modules, "+" + cycle[1]] if cycle else []
        self.is_const = bool(re.search(r"\bconst\b", head[: head.rfind("fn ")]))
        # The types of its file.
        self.types = ()

    def stands(self, name=None):
        """The path by which the prover finds it alone, or the one of this name beside it. Where its
        text does not tell that, the path of its module, and nothing for the crate's root."""
        *around, own = self.path
        of = around[-1] if around else None
        if self.is_of_trait or isinstance(of, Impl) and of.spelled not in self.types:
            return "::".join(around[:-1])
        around = [it.spelled if isinstance(it, Impl) else it for it in around]
        return "::".join([*around, name or own])

    def fit(self, name):
        """How well the prover's name fits: nothing, where it is not the function's. A name of its
        closures fits as the function's does."""
        is_closure, parts = "::fn::" in name, [it for it in name.split("::")[1:] if it != "fn"]
        impl, whole = self.path[-2:-1], list(self.path)
        if not impl or isinstance(impl[0], str):
            is_own = parts[: len(whole)] == whole and (is_closure or len(parts) == len(whole))
            return (1,) if is_own else ()
        for at in range(len(parts) - 1):
            if parts[at + 1] == whole[-1] and (is_closure or at + 2 == len(parts)):
                fit = impl[0].fits(parts[at])
                if fit:
                    return fit == 3, parts[:at] == whole[:-2], fit
        return ()

    def names(self, crate, told):
        """The prover's names of the function and its closures, and the one of its cycle."""
        fits = {name: self.fit(name) for name in told}
        best = max(fits.values(), default=())
        found = [name for name, fit in fits.items() if fit and fit == best]
        return [*found, "::".join([crate, *self.cycle])] if found and self.cycle else found


class Impl:
    """The part of a path that an impl block is: the names of the type and the trait, and what the
    trait is given. A type that is a parameter of the block is called any."""

    def __init__(self, head):
        head = re.sub(r"'\w+", "", re.split(r"\bwhere\b", head)[0]).strip()
        of_all = head[: angle_end(head)] if head.startswith("<") else ""
        whole, _, of = head[len(of_all) :].rpartition(" for ")
        self.spelled = named = last_word(of)
        self.is_of_trait = bool(whole)
        is_any = named in re.findall(r"[<,]\s*(\w+)", of_all)
        self.name = (("any" if is_any else named) + last_word(whole)).lower()
        self.given = "".join(re.findall(r"\w+", whole.partition("<")[2])).lower()

    def fits(self, part):
        """How well it fits a part of a prover's name: 0, not at all; 3, in every word."""
        if not part.lower().startswith(self.name):
            return 0
        rest = part.lower()[len(self.name) :]
        if rest == self.given:
            return 3
        return 2 if rest.startswith(self.given) or self.given.startswith(rest) else 1


def last_word(type_text):
    return (re.findall(r"\w+", type_text.partition("<")[0]) or [""])[-1]


def angle_end(text):
    """Where the angle brackets that a text begins with have closed."""
    depth = 0
    for at, it in enumerate(text):
        depth += (it == "<") - (it == ">" and text[at - 1] != "-")
        if not depth:
            return at + 1
    return len(text)


def closing(text, at):
    """Where what opens here has closed."""
    opens, depth = text[at], 0
    for it in re.finditer("[%s]" % re.escape(opens + OPENS[opens]), text[at:]):
        depth += 1 if it[0] == opens else -1
        if not depth:
            return at + it.end()
    return len(text)


def body_of(text, at, end):
    """Where the body of the function opens whose name ends here, past its clauses; or where it
    ends, if it has none."""
    since = at
    while token := re.compile(r"[{(\[;]").search(text, at, end):
        opens = token.start()
        if token[0] == ";" or token[0] == "{" and not CLAUSE.search(text[since:opens]):
            return opens
        at = closing(text, opens)
        since = at if token[0] == "{" else since
    return end


def block_of(text, at, end):
    """Where the block of an item opens whose head begins here, and where the item ends."""
    while token := re.compile(r"[{(\[;]").search(text, at, end):
        if token[0] == ";":
            return None, token.end()
        at = closing(text, token.start())
        if token[0] == "{":
            return token.start(), at
    return None, end


def functions_in(text, at, end, path, is_of_trait=False):
    """The functions of the items between two places of a text without comments and strings, which
    are those of a trait, or are not."""
    start = at
    while token := TOKEN.search(text, at, end):
        if token[1]:
            body = body_of(text, token.end(), end)
            at = closing(text, body) if text[body : body + 1] == "{" else body + 1
            head = text[start : token.end()]
            yield Function((*path, token[1]), start, body, at, head, is_of_trait)
        elif token[0] == ";":
            at = token.end()
        elif token[0] in OPENS:
            at = closing(text, token.start())
        else:
            opens, at = block_of(text, token.end(), end)
            if opens and token[0] != "macro_rules":
                part = token[2] or token[3] or Impl(text[token.end() : opens])
                of_trait = bool(token[3] or isinstance(part, Impl) and part.is_of_trait)
                yield from functions_in(text, opens + 1, at - 1, (*path, part), of_trait)
        # A bracket or a parenthesis ends no item: an attribute, or a type.
        start = start if token[0] in ("(", "[") else at


def functions_of(path, text):
    """The functions of a file of a crate, where it is one of src/."""
    if not path.startswith("src/") or not path.endswith(".rt"):
        return []
    parts = path[len("src/") : -len(".rt")].split("/")
    parts = parts[:-1] if parts[-1] in ("lib", "main", "mod") else parts
    text = BLANK.sub(lambda it: re.sub(r"[^\n]", " ", it[0]), text)
    found = list(functions_in(text, 0, len(text), tuple(parts)))
    for it in found:
        it.types = TYPE.findall(text)
    return found
