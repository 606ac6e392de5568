#!/usr/bin/env python3
"""The project counted: what a reader must believe, and how much else there is. Run it anywhere in the project; it needs nothing but Python.

To believe is every definition that a contract of a public function cites, or a theorem that docs/TRUST.md names, and what that cites in turn.
Public functions are those of the crates, or of the modules of crates, that docs/TRUST.md says callers enter. Lines are counted without comments,
blank lines and imports; the worked cases (`protocol` Cases) are test data and do not count.

It fails, with a line for each thing that is wrong, where a definition to believe stands in a folder specs/inner/, where another stands outside
one, where a name has two definitions, where a public function that callers enter requires something, or where a function has more than seven
parameters. A module that is private and whose names are handed out by `pub use` counts as entered.
"""
import collections
import glob
import os
import re
import sys

CASES = ("protocol", "Cases")
DECLARATION = re.compile(r"^(\s*)(?:(unfoldable|abbrev)\s+)?(pub\s+)?(?:(record|data)\s+)?([^\s:({]+)")
TOKEN = re.compile(r"[^\s(){};,\[\]«»]+")


def code_lines(path):
    """A file's lines without blank ones and comments."""
    with open(path, encoding="utf-8") as f:
        lines = [line.rstrip("\n") for line in f]
    return [line for line in lines if line.strip() and not line.strip().startswith(("--", "//"))]


def tokens(lines):
    """The words of lines, and the parts of those that have dots in them."""
    for line in lines:
        for word in TOKEN.findall(re.sub(r"\s--.*$", "", line)):
            yield word
            if "." in word:
                yield from word.split(".")


class Module:
    """A file of definitions or laws: what it imports, and the lines of each declaration."""

    def __init__(self, path):
        self.imports = {}  # name: the module that has it
        self.lines = collections.OrderedDict()  # name: its lines
        self.kind = {}  # name: record, data, unfoldable, abbrev or nothing
        self.public = set()
        self.cases = {}  # a constructor: its data type
        name, depth = None, 0
        for line in code_lines(path):
            imported = re.match(r"\s*(?:pub )?use\s+(\S+?)\.\{(.*)\}", line)
            if imported:
                for n in imported.group(2).split(","):
                    self.imports[n.split(" as ")[-1].strip()] = imported.group(1)
                name = None
            elif re.match(r"\s*(use|mod|pub mod|module)\b", line):
                name = None
            elif self.starts(line, name, depth):
                found = DECLARATION.match(line)
                name, depth = found.group(5), len(found.group(1))
                self.kind[name] = found.group(4) or found.group(2) or ""
                self.lines[name] = [line]
                if found.group(3):
                    self.public.add(name)
            elif name is not None:
                self.lines[name].append(line)
                case = re.match(r"\s+([^\s:]+)\s*:", line)
                if self.kind[name] == "data" and case:
                    self.cases[case.group(1)] = name

    def starts(self, line, name, depth):
        """Whether a declaration starts here: not a field, a clause or a line that goes on."""
        found = DECLARATION.match(line)
        if not found or (name is not None and len(found.group(1)) > depth):
            return False
        if found.group(2) or found.group(3) or found.group(4):
            return True
        return re.match(r"\s*[^\s:({]+\s*:\s", line) is not None

    def is_definition(self, name):
        return self.kind[name] != ""

    def statement(self, name):
        """A definition whole; of a law what stands before its proof."""
        if self.is_definition(name):
            return self.lines[name]
        out = self.lines[name][:1]
        for line in self.lines[name][1:]:
            if re.match(rf"\s*({re.escape(name)}|unfolding)(\s|$)", line):
                break
            out.append(line)
        return out


def load():
    specs, proofs = {}, {}
    for path in sorted(glob.glob("crates/*/specs/**/*.antt", recursive=True)):
        crate, file = path.split("/specs/")
        specs[crate[7:], file[:-5].replace("/", ".")] = Module(path)
    for path in sorted(glob.glob("crates/*/proofs/*.antt")):
        crate, file = path.split("/proofs/")
        proofs[crate[7:], file[:-5]] = Module(path)
    return specs, proofs


class Citations:
    def __init__(self, specs, proofs):
        self.specs = specs
        self.proofs = proofs

    def home(self, module, own, word):
        """Where a word is defined: ('specs', (crate, file), name), or the same of proofs, or nothing."""
        if own is not None and word in module.lines:
            return (*own, word)
        if own is not None and word in module.cases:
            return (*own, module.cases[word])
        found = re.match(r"Rattle\.([a-z_]+)\.(specs|proofs)\.(.+)$", module.imports.get(word, ""))
        if not found:
            return None
        kind, place = found.group(2), (found.group(1), found.group(3))
        there = (self.specs if kind == "specs" else self.proofs).get(place)
        if there is None:
            return None
        name = word if word in there.lines else there.cases.get(word)
        return (kind, place, name) if name else None

    def closure(self, module, own, lines):
        """Every definition of specs that lines cite, through definitions of specs and of proofs."""
        todo = [(module, own, lines)]
        seen = set()
        while todo:
            module, own, lines = todo.pop()
            for word in tokens(lines):
                at = self.home(module, own, word)
                if at is None or at in seen:
                    continue
                there = (self.specs if at[0] == "specs" else self.proofs)[at[1]]
                if at[0] == "proofs" and not there.is_definition(at[2]):
                    continue
                seen.add(at)
                todo.append((there, at[:2], there.lines[at[2]]))
        return {(place, name) for kind, place, name in seen if kind == "specs" and place != CASES}


class Source:
    """The imports and contracts of a file of code."""

    def __init__(self, path):
        with open(path, encoding="utf-8") as f:
            text = f.read()
        self.imports = {}
        for found in re.finditer(r"ghost use (\S+?)\.\{([^}]*)\};", text):
            for name in found.group(2).split(","):
                self.imports[name.strip()] = found.group(1)
        self.lines, self.cases = {}, {}
        self.contracts = [m.group(2) for m in re.finditer(r"^(\s*)pub (?:extern \"C\" )?fn \w+(.*?)^\1\{", text, re.S | re.M)]
        self.functions = [
            (m.group(1), len([p for p in m.group(2).split(",") if p.strip()]))
            for m in re.finditer(r"\bfn (\w+)(?:<[^>]*>)?\(([^)]*)\)", text)
        ]


def trusted():
    """The crates and modules that callers enter, and the files of theorems, as docs/TRUST.md names them."""
    with open("docs/TRUST.md", encoding="utf-8") as f:
        text = " ".join(f.read().split())
    entered = re.search(r"Callers enter (.*?): ", text)
    theorems = []
    for crate, files in re.findall(r"`crates/(\w+)/proofs/(\{[^}]*\}|\w+)\.antt`", text.split("What follows a statement there")[0]):
        theorems += [(crate, f) for f in files.strip("{}").split(",")]
    return re.findall(r"`(\w+)(?:::(\w+))?`", entered.group(1)), theorems


def entries(sources, entered):
    """The contracts of what callers enter, each with its file."""
    for crate, module in entered:
        with open(f"crates/{crate}/src/lib.rt", encoding="utf-8") as f:
            text = f.read()
        private = set(re.findall(r"^mod (\w+);", text, re.M)) - set(re.findall(r"^pub use (?:self::)?(\w+)::", text, re.M))
        for path, source in sources.items():
            file = os.path.basename(path)[:-3]
            if path.split("/")[1] == crate and file not in private and module in ("", file):
                yield from ((path, contract) for contract in source.contracts)


def believed(specs, proofs, sources, entered, theorems):
    cite = Citations(specs, proofs)
    found = set()
    for path, contract in entries(sources, entered):
        found |= cite.closure(sources[path], None, contract.split("\n"))
    for place in theorems:
        module = proofs[place]
        for name in module.public:
            found |= cite.closure(module, ("proofs", place), module.statement(name))
    return found


def main():
    os.chdir(os.path.join(os.path.dirname(os.path.abspath(__file__)), ".."))
    specs, proofs = load()
    sources = {p: Source(p) for p in sorted(glob.glob("crates/*/src/*.rt"))}
    entered, theorems = trusted()
    believe = believed(specs, proofs, sources, entered, theorems)
    every = {(k, n) for k, m in specs.items() if k != CASES for n in m.lines}
    inner = {x for x in every if x[0][1].startswith("inner.")}
    size = lambda xs: sum(len(specs[k].lines[n]) for k, n in xs)

    wrong = [f"to believe, but in specs/inner: {k[0]} {k[1]} {n}" for k, n in sorted(believe & inner)]
    wrong += [f"not to believe, but not in specs/inner: {k[0]} {k[1]} {n}" for k, n in sorted(every - believe - inner)]
    wrong += [f"callers enter it, and it requires something: {path}" for path, contract in entries(sources, entered) if re.search(r"^\s*requires\b", contract, re.M)]
    names = collections.Counter(n for m in specs.values() for n in m.lines)
    wrong += [f"defined twice: {n}" for n, count in sorted(names.items()) if count > 1]
    for path, source in sources.items():
        wrong += [f"{count} parameters: {path} {name}" for name, count in source.functions if count > 7]
    if wrong:
        print("\n".join(wrong))
        sys.exit(1)

    own = [p for f in ("Proof", "Invariants", "Answers") for p in glob.glob(f"crates/*/proofs/**/{f}.antt", recursive=True)]
    code = [line for p in sources for line in code_lines(p) if not line.startswith("ghost use")]
    rows = [
        ("crates", len(glob.glob("crates/*/"))),
        ("functions", sum(len(s.functions) for s in sources.values())),
        ("lines of code, without what is imported for contracts", len(code)),
        ("definitions, and their lines", f"{len(every)} in {size(every)}"),
        ("of these to believe", f"{len(believe)} in {size(believe)}"),
        ("of these in specs/inner, for leaves and proofs", f"{len(inner)} in {size(inner)}"),
        ("laws that other modules may cite", sum(len(m.public) for m in proofs.values())),
        ("lines of laws and of their proofs", sum(len(code_lines(p)) for p in glob.glob("crates/*/proofs/*.antt"))),
        ("lines of functions' proofs", sum(len(code_lines(p)) for p in own)),
        ("must-fail edits", len(glob.glob("crates/*/must-fail/*.edit"))),
    ]
    for name, value in rows:
        print(f"{name}: {value}")


if __name__ == "__main__":
    main()
