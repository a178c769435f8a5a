#!/usr/bin/env python3
"""Turns each Proof.antt over a function's Tie into Invariants.antt and Answers.antt.

usage: tools/answers.py NAMES CRATE..    at the top of the checkout

NAMES is a folder with NAMES/CRATE/names.json, which `rattle check --generated NAMES/CRATE --old-names` writes for each crate.
A context of the older kit is a chain, c.before.before.size.ensures; today's is flat, c.size.ensures, and its steps have other names.
It prints the places that it could not turn: mend those by hand, by what rt check says.
"""
import glob
import json
import os
import re
import sys

ID = r"[^\W\d][\w'₀]*(?:-[\w'₀]+)*"
PATH = re.compile(r"(?<![\w.'₀-])(?:\((?P<proj>" + ID + r") (?P<pv>" + ID + r")\)|(?P<var>" + ID + r"))(?P<segs>(?:\.[\w'₀+-]+)*)")


def norm(x):
    return re.sub("-[A-Z]", lambda m: m.group(0).lower(), x.replace("_", "-"))


class Fn:
    def __init__(self, entry):
        self.e = entry
        self.parent, self.step, self.newplace = {}, {}, {}
        for p, n in zip(entry["places"], entry["places_by_name"]):
            k = norm(p[0])
            self.parent[k] = norm(p[1]) if p[1] else None
            self.step[k] = p[2]
            self.newplace[k] = n
        self.need = {}
        for (o, n), (op, np) in zip(entry["needs"], entry["asked_at"]):
            self.need[norm(o)] = (n, norm(op))
            self.need.setdefault(norm(n), (n, norm(op)))
        self.loopvars = {}
        for (names, lv) in entry["loops"]:
            for v in lv:
                self.loopvars[norm(v)] = v

    def find_need(self, w):
        k = norm(w)
        for t in (k, re.sub(r"^(overflow|nonzero|bounds)-", "", k)):
            if t in self.need:
                return self.need[t]
        return None

    def resolve(self, place, segs):
        """New segments below the flat record, and the kind: ('ctx', place) or ('step', place) or ('val', None)."""
        i = 0
        while i < len(segs) and segs[i] == "before":
            i += 1
        if i == len(segs):
            return [], ("ctx", place)
        s = norm(segs[i])
        chain, p = [], place
        while p:
            chain.append(p)
            p = self.parent.get(p)
        hits = [(abs(d - i) + (0.5 if d < i else 0), q) for d, q in enumerate(chain) if self.step[q] and self.step[q][0] and norm(self.step[q][0]) == s]
        if hits:
            at = min(hits)[1]
            st = self.step[at]
            rest = segs[i + 1:]
            if rest and norm(rest[0]) in self.loopvars and st[0].startswith("loop"):
                rest = [self.loopvars[norm(rest[0])]] + rest[1:]
            return [st[1]] + rest, (("step", at) if not rest else ("val", None))
        if s in ("args", "ranges") and i + 1 < len(segs):
            for o, n in self.e["args"]:
                if norm(o.replace(" ", "")) == "." + s + "." + norm(segs[i + 1]):
                    return [x for x in n.replace(" ", "").split(".") if x] + segs[i + 2:], ("val", None)
        return [x.replace("well-formed", "well_formed") for x in segs[i:]], ("val", None)


def blocks(text):
    out, cur = [], []
    for line in text.split("\n"):
        if not line.strip():
            if cur:
                out.append(cur)
            cur = []
        elif cur and re.match(r"(abbrev |pub |unfoldable )*" + ID + r" :", line) and not line.startswith(" ") and not any(l.startswith("use ") or l.startswith("--") for l in cur[-1:]):
            out.append(cur)
            cur = [line]
        else:
            cur.append(line)
    if cur:
        out.append(cur)
    return out


def turn(fn, text, aliases, projs, said):
    """Rewrites the paths of a body. aliases: var -> ('ctx', place) | ('step', place)."""
    def sub(m):
        segs = [x for x in (m.group("segs") or "").split(".") if x]
        if m.group("proj"):
            if m.group("proj") not in projs or m.group("pv") not in aliases:
                return m.group(0)
            var, place, kind = m.group("pv"), projs[m.group("proj")], "ctx"
        else:
            var = m.group("var")
            if var not in aliases:
                return m.group(0)
            kind, place = aliases[var]
        if kind == "step":
            if segs and norm(segs[0]) in fn.loopvars and (fn.step[place][0] or "").startswith("loop"):
                segs = [fn.loopvars[norm(segs[0])]] + segs[1:]
            return ".".join([var] + segs)
        new, k = fn.resolve(place, segs)
        return ".".join([var] + new)

    # walk left to right so that lets add aliases
    out, pos = "", 0
    letre = re.compile(r"let (" + ID + r") = (?:\((" + ID + r") (" + ID + r")\)|(" + ID + r"))((?:\.[\w'₀+-]+)*) in")
    while True:
        m = letre.search(text, pos)
        if not m:
            out += PATH.sub(sub, text[pos:])
            break
        out += PATH.sub(sub, text[pos:m.start()])
        name, proj, pv, var, segs = m.groups()
        segs = [x for x in segs.split(".") if x]
        base = None
        if proj and proj in projs and pv in aliases:
            base = (pv, projs[proj])
        elif var in aliases and aliases[var][0] == "ctx":
            base = (var, aliases[var][1])
        if base:
            new, kind = fn.resolve(base[1], segs)
            out += f"let {name} = {'.'.join([base[0]] + new)} in"
            if kind[0] in ("ctx", "step"):
                aliases[name] = kind
        else:
            out += f"let {name} = " + PATH.sub(sub, text[m.end(1) + 3:m.end()])
        pos = m.end()
    return out


def definition(name, body):
    """The `unfolding` line of a body, and its parameters and right side."""
    joined = "\n".join(body)
    unf = re.match(r"(?:unfolding [^\n]*\n)?", joined).group(0)
    return unf, re.match(re.escape(name) + r"((?: \S+)*?) =(.*)$", joined[len(unf):], re.S)


def convert(path, crate, sub, entry):
    said = []
    text = open(path, encoding="utf-8").read()
    fn = Fn(entry)
    bl = blocks(text)
    uses, answers, invs, projs, helpers = [], {}, [], {}, []
    specargs = None
    for b in bl:
        if all(l.startswith("use ") or l.startswith("--") for l in b):
            uses += [l for l in b if l.startswith("use ") and ".Statement." not in l and not l.endswith(".Tie as tie")]
            continue
        sig = b[0]
        k = 0
        m = re.match(r"((?:abbrev |pub |unfoldable )*)(" + ID + r") : (.*)$", sig)
        if not m:
            helpers.append((None, "\n".join(b)))
            continue
        marks, name, typ = m.groups()
        body_lines = b[1:]
        if "statement M" in typ:
            body = " ".join(body_lines)
            s = re.search(r"tie\.spec(.*)\)\s*$", body)
            if s:
                specargs = s.group(1)
            continue
        mi = re.match(r"tie\.(invariant|decreases)-([\w-]+)$", typ)
        if mi:
            invs.append((mi.group(1), mi.group(2), body_lines, name))
            continue
        mn = re.match(r"tie\.Need-([\w-]+?)(?:(?: (?:invariant|decreases)-[\w-]+)*)$", typ)
        if mn:
            answers[name] = (mn.group(1), body_lines)
            continue
        mp = re.match(r"tie\.([\w-]+)(?: (?:invariant|decreases)-[\w-]+)* → tie\.([\w-]+)(?: (?:invariant|decreases)-[\w-]+)*$", typ)
        if mp and len(body_lines) == 1 and re.search(r"= " + ID + r"(\.before)*$", body_lines[0]):
            projs[name] = norm(mp.group(2))
            continue
        helpers.append((name, "\n".join(b)))
    # spec arguments
    inline = []
    if specargs is not None:
        toks, depth, cur = [], 0, ""
        for ch in specargs.strip():
            if ch == "(":
                depth += 1
            if ch == ")":
                depth -= 1
            if ch.isspace() and depth == 0:
                if cur:
                    toks.append(cur)
                cur = ""
            else:
                cur += ch
        if cur:
            toks.append(cur)
        toks = [t for t in toks if not re.match(r"(invariant|decreases)-", t)]
        for i, t in enumerate(toks):
            if t in ("(search rules)", "(omega arith)", "(cc)", "cc") or re.match(ID + "$", t):
                continue
            if len(toks) == len(entry["needs"]):
                inline.append((entry["needs"][i][1], t))
            else:
                said.append(f"inline answer {i} of {len(toks)}/{len(entry['needs'])}: {t}")
    mod = f"Rattle.{crate}.proofs.{sub.replace('/', '.')}"
    folder = os.path.dirname(path)
    title = crate + "::" + sub.replace("/", "::")
    # ---- invariants
    outinv = []
    for kind, loop, body, name in invs:
        hit = [(n, lv, ch) for ((n, lv), ch) in zip(entry["loops"], entry["changed"]) if norm(n[0]) == norm(loop)]
        if not hit:
            said.append(f"no loop {loop}")
            continue
        (n, lv, ch) = hit[0]
        unf, m = definition(name, body)
        if not m:
            said.append(f"invariant {loop} not read")
            continue
        params = m.group(1).split()
        changed = [v for v, c in zip(lv, ch) if c]
        order = [("l.initial." if c else "l.") + v for v, c in zip(lv, ch)] + ["l." + v for v in changed]
        if len(params) != len(order):
            said.append(f"invariant {loop}: {len(params)} parameters {params}, {len(order)} in the json {order}")
        rhs = m.group(2)
        for p, o in zip(params, order):
            if p == "_":
                continue
            if re.search(r"λ [^.]*(?<![\w-])" + re.escape(p) + r"(?![\w'₀-])[^.]*\.", rhs):
                said.append(f"invariant {loop}: {p} is bound by a λ")
            rhs = re.sub(r"(?<![\w.'₀-])" + re.escape(p) + r"(?![\w'₀-])", "\0" + o, rhs)
        rhs = rhs.replace("\0", "")
        outinv.append(f"abbrev pub {kind}-{n[1]} : goal.{kind}-{n[1]}\n{unf}{kind}-{n[1]} l ={rhs}")
    if outinv:
        with open(folder + "/Invariants.antt", "w") as f:
            f.write(f"-- What the loop of `{title}` keeps, and its measure.\n-- Assumes nothing.\n" + "\n".join(uses + [f"use {mod}.Given as goal"]) + "\n\n" + "\n\n".join(outinv) + "\n")
    # ---- answers
    outans = []
    def typefix(t):
        return re.sub(r"tie\.([A-Z][\w-]*)(?: (?:invariant|decreases)-[\w-]+)*", lambda m: "goal." + fn.newplace.get(norm(m.group(1)), "?" + m.group(1)), t)
    for name, h in helpers:
        al = {v: ("ctx", norm(p)) for v, p in re.findall(r"\((" + ID + r") : tie\.([A-Z][\w-]*)", h)}
        h2 = turn(fn, typefix(h), al, projs, said)
        outans.append(h2)
    done = set()
    for name, (old, body) in answers.items():
        hit = fn.find_need(old)
        if not hit:
            said.append(f"no goal {old}")
            continue
        new, place = hit
        unf, m = definition(name, body)
        if not m:
            said.append(f"answer {name} not read")
            outans.append(f"-- ?? {name} : goal.{new}\n" + "\n".join("-- " + x for x in body))
            continue
        params = [p for p in m.group(1).split() if p not in ("κs", "_κs")]
        if params != ["c"] and len(params) != 1:
            said.append(f"answer {name} takes {params}")
        rhs = m.group(2)
        if rhs.strip() in ("search rules", "omega arith", "cc") and not unf:
            continue
        c = params[0] if params else "c"
        rhs = turn(fn, typefix(rhs), {c: ("ctx", place)}, projs, said)
        outans.append(f"pub {new} : goal.{new}\n{unf}{new} {' '.join(params)} ={rhs}")
    for new, t in inline:
        outans.append(f"pub {new} : goal.{new}\n{new} c = {t[1:-1] if t.startswith('(') and t.endswith(')') else t}")
    text = "\n\n".join(outans)
    fixed = re.sub(r"(?<![\w.-])(" + ID + r"(?:\.[\w-]+)*\.if-not-[\w-]+\.(?:true|false))(?![\w.-])", r"(ap not \1)", text)
    if fixed != text:
        outans = [fixed]
        have = "\n".join(uses)
        for w, m in (("ap", "mathlib.Core.Path"), ("not", "mathlib.Core.Bool")):
            if not re.search(r"[{ ]" + w + r"[,}]", have):
                uses.append(f"use {m}.{{{w}}}")
    if outans:
        with open(folder + "/Answers.antt", "w") as f:
            f.write(f"-- What is left of `{title}`.\n-- Assumes nothing.\n" + "\n".join(uses + [f"use {mod}.Goals as goal"]) + "\n\n" + "\n\n".join(outans) + "\n")
    os.remove(path)
    return said


def main(argv):
    names, crates = argv[0], argv[1:]
    for crate in crates:
        d = json.load(open(f"{names}/{crate}/names.json"))
        for path in sorted(glob.glob(f"crates/{crate}/proofs/**/Proof.antt", recursive=True)):
            t = open(path, encoding="utf-8").read()
            if "Tie as tie" not in t:
                print(f"{path}: a walk, left")
                continue
            sub = re.match(rf"crates/{crate}/proofs/(.*)/Proof.antt", path).group(1)
            e = d[f"Rattle-{crate}-proofs.{sub.replace('/', '.')}.Lts"]
            for s in convert(path, crate, sub, e):
                print(f"{path}: {s}")
    return 0


if __name__ == "__main__":
    sys.exit(main(sys.argv[1:]))
