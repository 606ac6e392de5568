#!/usr/bin/env python3
"""Turns proofs/F/Proof.antt, which closed a tie of all goals, into Invariants.antt and Answers.antt.

usage: python3 tools/turn_proofs.py NAMES CRATE [FUNCTION..]

NAMES is the names.json that `rattle check --generated DIR --old-names` writes of the crate: each goal's and step's name in both forms.
Answers that are `search rules` alone are left out, since the check tries that and more by itself. What it can't turn it names.
"""
import json
import os
import re
import sys

WORD = r"[A-Za-z0-9_'!?₀-₉+-]"


def norm(s):
    s = s.replace("-", "_").lower()
    for p in ("overflow_", "nonzero_", "slice_bounds_", "part_"):
        if s.startswith(p):
            s = s[len(p):]
    return s


class Function:
    def __init__(self, key, d):
        self.path = key.split("-proofs.", 1)[1].rsplit(".Lts", 1)[0]
        self.needs = {norm(a): b for a, b in d["needs"]}
        self.steps = {}
        self.renames = {}
        for name, parent, (old, new), callee, ren in d["places"]:
            if old:
                self.steps.setdefault(norm(old), new)
                for a, b in ren:
                    self.renames.setdefault((norm(old), a), b)
        # what an arm of a match binds or knows: (old step, its fields) to (arm, field)
        self.arms = {}
        for a in d["arms"]:
            if a:
                for field, step, path in a[2]:
                    self.arms.setdefault((norm(step), tuple(path)), (a[0], field))
        self.loops = list(zip(d["loops"], d["changed"]))
        for (old, new), _ in ((l, 0) for l, v in d["loops"]):
            self.steps.setdefault(norm(old), new)
        self.typed = {}
        for t in d["typed"]:
            for var, step in t:
                self.typed[norm(step)] = var


def blocks(text):
    """Top-level blocks: each starts in column 0 after a blank line or a comment."""
    out, cur = [], []
    for line in text.split("\n"):
        if not line.strip():
            if cur:
                out.append(cur)
                cur = []
            continue
        cur.append(line)
    if cur:
        out.append(cur)
    merged = []
    for b in out:
        if merged and b[0].startswith(" "):
            merged[-1] += [""] + b
        else:
            merged.append(b)
    return merged


def path_turner(f, said):
    aliases = {"c": ""}

    def known(m):
        """c(.before)*.STEP.field"""
        head, rest = m.group(1), m.group(2)
        parts = [p for p in rest.split(".") if p]
        i = 0
        while i < len(parts) and parts[i] == "before":
            i += 1
        parts = parts[i:]
        if not parts:
            return "c" if head == "c" else "c"
        s = parts[0]
        if s in ("args", "requires", "ranges", "type_inv"):
            return "c." + ".".join(parts)
        n = norm(s)
        for k in range(len(parts), 1, -1):
            if (n, tuple(parts[1:k])) in f.arms:
                return "c." + ".".join(list(f.arms[(n, tuple(parts[1:k]))]) + parts[k:])
        if n == "well_formed":
            return "c." + ".".join(["well_formed"] + parts[1:])
        if n in f.steps:
            if n in f.typed and len(parts) > 1 and parts[1] == "given":
                return "c." + ".".join(["type_inv", f.typed[n]] + parts[2:])
            new = f.steps[n]
            if len(parts) > 1 and (n, parts[1]) in f.renames:
                parts[1] = f.renames[(n, parts[1])]
            return "c." + ".".join([new] + parts[1:])
        said.append(f"step {s}")
        return "c." + ".".join(parts)

    def turn(body):
        # places bound by let
        while True:
            names = "|".join(re.escape(a) for a in aliases)
            m = re.search(r"(?<![\w.'-])let (" + WORD + r"+) = ((?:" + names + r")(?:\.before)*) in(?=\s)", body)
            if not m:
                break
            aliases[m.group(1)] = ""
            a, b = m.span()
            # drop the let, and the line break behind it where it had a line of its own
            rest = body[b:]
            line_start = body.rfind("\n", 0, a) + 1
            if body[line_start:a].strip() == "" and rest.startswith("\n"):
                body = body[:line_start] + rest[1:]
            else:
                body = body[:a] + rest.lstrip(" ")
        # a let of what the type says of a slice: let known = c.before.shared-slice-known in .. known.given X
        names = "|".join(re.escape(a) for a in aliases)
        for m in list(re.finditer(r"let (" + WORD + r"+) = (?:" + names + r")(?:\.before)*\.(" + WORD + r"+) in", body)):
            v, s = m.group(1), norm(m.group(2))
            if s in f.typed:
                body = re.sub(r"(?<![\w.'-])" + re.escape(v) + r"\.given(?![\w'-])", "c.type_inv." + f.typed[s], body)
                if not re.search(r"(?<![\w.'-])" + re.escape(v) + r"\.", body.replace(m.group(0), "")):
                    body = re.sub(r"[ \t]*" + re.escape(m.group(0)) + r"\n?", "", body, count=1)
        names = "|".join(sorted((re.escape(a) for a in aliases), key=len, reverse=True))
        return re.sub(r"(?<![\w.'-])(" + names + r")((?:\." + WORD + r"+)+)", known, body)

    return turn


def convert(crate, folder, f, note):
    p = os.path.join(folder, "Proof.antt")
    text = open(p, encoding="utf-8").read()
    said = []
    bl = blocks(text)
    head, uses, decls = [], [], []
    for b in bl:
        if b[0].startswith("use ") or (b[0].startswith("--") and not decls and any(l.startswith("use ") for l in b)):
            for l in b:
                (uses if l.startswith("use ") or uses else head).append(l)
        else:
            decls.append(b)
    uses = [u for u in uses if not re.search(r"\.(Tie|Statement|Reads|Kinds)(\.\{| as |$)", u) and ".Lts" not in u]
    spec = None
    inv, dec, answers, lemmas = {}, {}, [], []
    used_lemma = []
    for b in decls:
        comment = [l for l in b if l.startswith("--")]
        code = "\n".join(l for l in b if not l.startswith("--"))
        m = re.match(r"(?:abbrev )?(?:pub )?(" + WORD + r"+) : ", code)
        if not m:
            lemmas.append("\n".join(b))
            continue
        name = m.group(1)
        if re.search(r"^pub .*(statement M|statement)$", code.split("\n")[0]) and name.endswith(("-spec", "_spec")):
            spec = code
            continue
        sig = code.split("\n")[0]
        m2 = re.search(r": (?:\(t : ℕ\) → )?(?:tie|lts)\.(?:Need-)(" + WORD + r"+)(.*)$", sig)
        m3 = re.search(r": tie\.(invariant|decreases)-(" + WORD + r"+)$", sig)
        if m3:
            lhs = re.search(r"^" + re.escape(name) + r"((?: [^\s=]+)*) =(.*)$", code, re.M | re.S)
            loop = m3.group(2)
            cand = [x for x in f.loops if norm(x[0][0][0]) == norm(loop)]
            if not lhs or not cand:
                said.append("invariant " + name)
                lemmas.append(code)
                continue
            (names, vs), ch = cand[0]
            params = lhs.group(1).split()
            mapping = {}
            k = 0
            for v, c in zip(vs, ch):
                mapping[params[k]] = ("l.initial." if c else "l.") + v
                k += 1
            for v, c in zip(vs, ch):
                if c:
                    if k < len(params):
                        mapping[params[k]] = "l." + v
                    k += 1
            if k != len(params):
                said.append(f"invariant {name}: {len(params)} parameters for {k}")
            body = re.sub(r"(?<![\w.'!?₀-₉+-])[A-Za-z_]" + WORD + r"*", lambda m: mapping.get(m.group(0), m.group(0)), lhs.group(2))
            unf = re.findall(r"^unfolding .*$", code, re.M)
            new = f"{m3.group(1)}-{names[1]}"
            (inv if m3.group(1) == "invariant" else dec)[new] = (comment, unf, body)
        elif m2:
            goal = f.needs.get(norm(m2.group(1)))
            body = code.split("\n", 1)[1]
            lines = body.split("\n")
            unf = [l for l in lines if l.startswith("unfolding ")]
            rest = "\n".join(l for l in lines if not l.startswith("unfolding "))
            m4 = re.match(re.escape(name) + r"((?: [^\s=]+)*) =(.*)$", rest, re.S)
            if goal is None:
                said.append("goal gone: " + m2.group(1))
                continue
            if not m4:
                said.append("clauses of " + name)
                answers.append((goal, "\n".join(comment + [code])))
                continue
            params, val = m4.group(1).split(), m4.group(2)
            if re.fullmatch(r"\s*search rules\s*", val) and not unf:
                continue
            params = [q for q in params if q != "κs"]
            t = path_turner(f, said)
            val = t(val)
            answers.append((goal, "\n".join(comment + [f"pub {goal} : goal.{goal}"] + unf + [f"{goal} {' '.join(params)} ={val}"])))
        else:
            lemmas.append("\n".join(b))
            if re.search(r"\b(tie|lts)\.", code):
                said.append("names the tie: " + name)
    if spec is None:
        said.append("no spec")
    else:
        for lam in re.findall(r"\((λ [^()]*(?:\([^()]*\)[^()]*)*)\)", spec):
            if not re.fullmatch(r"λ (t )?c( κs)?\. (search rules|omega arith)", lam) and not lam.startswith("λ t."):
                said.append("lambda " + lam)
    out = os.path.join(folder)
    path = f.path
    if inv or dec:
        t = list(head) + [u for u in uses]
        t += [f"use Rattle.{crate}.proofs.{path}.Given as goal", ""]
        for d in (inv, dec):
            for n, (comment, unf, body) in d.items():
                t += comment + [f"abbrev pub {n} : goal.{n}"] + unf + [f"{n} l ={body}", ""]
        local = [x for x in lemmas if re.match(r"(?:abbrev )?(?:pub )?(" + WORD + r"+) : ", x.split("\n")[0])]
        need = [x for x in lemmas for m in [re.search(r"(?m)^(?:abbrev |unfoldable )?(?:pub )?(" + WORD + r"+) : ", x)] if m and any(re.search(r"(?<![\w.'-])" + re.escape(m.group(1)) + r"(?![\w'-])", b[2]) for b in list(inv.values()) + list(dec.values()))]
        if need:
            said.append("an invariant names a lemma of the file")
        open(os.path.join(out, "Invariants.antt"), "w", encoding="utf-8").write("\n".join(t).rstrip("\n") + "\n")
    if answers:
        t = ([] if (inv or dec) else list(head)) + list(uses) + [f"use Rattle.{crate}.proofs.{path}.Goals as goal", ""]
        for l in lemmas:
            t += [l, ""]
        for g, a in answers:
            t += [a, ""]
        open(os.path.join(out, "Answers.antt"), "w", encoding="utf-8").write("\n".join(t).rstrip("\n") + "\n")
    elif lemmas:
        said.append("lemmas that no answer uses: dropped")
    os.remove(p)
    note(f"{crate}::{path}: " + ("; ".join(dict.fromkeys(said)) if said else "ok"))


def main():
    names, crate, only = sys.argv[1], sys.argv[2], sys.argv[3:]
    d = json.load(open(names, encoding="utf-8"))
    root = os.path.join("crates", crate, "proofs")
    for k, v in d.items():
        if ".Lts" not in k or "-proofs." not in k:
            continue
        f = Function(k, v)
        folder = os.path.join(root, *f.path.split("."))
        if only and f.path not in only:
            continue
        if os.path.exists(os.path.join(folder, "Proof.antt")):
            try:
                convert(crate, folder, f, print)
            except Exception as e:
                print(f"{crate}::{f.path}: FAILED {e!r}")


if __name__ == "__main__":
    main()
