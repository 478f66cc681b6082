#!/usr/bin/env python3
"""Turns walks (Proof.antt, with tie.Need-..) of a crate into Invariants.antt and Answers.antt.

usage: walks_to_answers.py CRATE_FOLDER [PATH..]     PATH: only the proofs whose folder below proofs/ is PATH (as text/is_character)

For the walks of this request, once they stand in their crates again. In the crate it runs `rt check --generated DIR --old-names`, which tells
the goals' and steps' old and new names; so the crates below must prove. An answer that only says `search rules` is left out, since the tactics
of the crate try that. What it could not turn is printed as `left: ..`, and is mended by hand.
"""
import json
import os
import re
import subprocess
import sys
import tempfile

ID = r"[A-Za-z_#+\u03b1-\u03c9\u0391-\u03a9][\w'\u2080-\u2089#+-]*"
PATHRE = re.compile(rf"(?<![\w'.\u2080-\u2089-])({ID})((?:\.[\w'\u2080-\u2089-]+)+)?")


def canon(s):
    return s.lower().replace("_", "-")


def left(*words):
    print("left:", *words)


class Fn:
    def __init__(self, entry, where):
        self.e = entry
        self.where = where
        self.places = entry["places"]
        self.names = entry["places_by_name"]
        self.index = {canon(p[0]): i for i, p in enumerate(self.places)}
        self.needs = entry["needs"]
        self.asked = entry["asked_at"]

    def place(self, name):
        return self.index.get(canon(name))

    def parent(self, p):
        n = self.places[p][1]
        return None if n is None else self.index[canon(n)]

    def new_fields(self, callee, rest):
        """`.new.1.1.0` as `.new.NAME`."""
        ps = self.e["params"].get(callee) if callee else None
        if rest and rest[0] in ("new", "auto") and ps and len(rest) > 1:
            k, i = 0, 1
            if len(ps) == 1 and rest[1] == "0":
                return [rest[0], ps[0]] + rest[2:]
            while i < len(rest) and rest[i] == "1":
                k += 1
                i += 1
            if i < len(rest) and rest[i] == "0" and k < len(ps):
                return [rest[0], ps[k]] + rest[i + 1:]
        return rest

    def step(self, p, fields):
        """The new path of the step that place p adds, or None."""
        old, new = self.places[p][2]
        f, rest = fields[0], fields[1:]
        arm = self.e["arms"][p] if p < len(self.e["arms"]) else None
        if arm:
            for nf, os_, path in arm[2]:
                if path and canon(f) == canon(os_) and [canon(x) for x in rest[:len(path)]] == [canon(x) for x in path]:
                    return [arm[0], nf] + rest[len(path):]
            for nf, os_, path in arm[2]:
                if not path and canon(f) == canon(os_):
                    return [arm[0]] + ([nf] if rest[:1] == ["rest"] else []) + rest
        if old and canon(f) == canon(old):
            fm = {a: b for a, b in self.places[p][4]}
            if rest and rest[0] in fm:
                rest = [fm[rest[0]]] + rest[1:]
            return [new] + self.new_fields(self.places[p][3], rest)
        return None

    def resolve(self, p, fields):
        while fields and fields[0] == "before":
            fields = fields[1:]
        if not fields:
            return "place", p
        if fields[0].endswith("_lem"):
            fields = [fields[0][:-4]] + fields[1:]
        q = p
        if len(fields) > 1 and fields[1] == "given" and p < len(self.e["typed"]):
            for var, known in self.e["typed"][p]:
                if canon(known) == canon(fields[0]):
                    return "text", ["c", "type_inv", var] + fields[2:]
        while q is not None:
            r = self.step(q, fields)
            if r:
                return "step", (["c"] + r, self.places[q][3])
            q = self.parent(q)
        if fields[0] in ("args", "requires", "ranges", "lifetimes", "ghost"):
            return "text", ["c"] + fields
        if fields[0] != "well-formed":
            left(self.where, "no step", fields[0], "at", self.places[p][0])
        return "text", ["c"] + fields

    def expr(self, text, env, rename):
        """The text with its paths in today's words; `let x = PLACE in` goes."""
        out, at = [], 0
        env = dict(env)
        steps = {}
        pos = 0
        while True:
            m = PATHRE.search(text, pos)
            if not m:
                break
            name, path = m.group(1), m.group(2)
            fields = path[1:].split(".") if path else []
            # a let of a place?
            lm = re.compile(rf"let\s+({ID})\s*=\s*({ID})((?:\.[\w'\u2080-\u2089-]+)*)\s+in\b").match(text, m.start())
            if name == "let" and lm:
                var, base, bp = lm.group(1), lm.group(2), lm.group(3)
                bf = bp[1:].split(".") if bp else []
                if base in env:
                    kind, r = self.resolve(env[base], bf)
                    if kind == "place":
                        env[var] = r
                        out.append(text[at:m.start()].rstrip(" ") if text[at:m.start()].endswith("\n    ") else text[at:m.start()])
                        at = lm.end()
                        pos = lm.end()
                        continue
                    if kind == "step" and len(r[0]) == 2:
                        steps[var] = r[1]
                elif base in steps and not bf:
                    steps[var] = steps[base]
            if name in env:
                kind, r = self.resolve(env[name], fields)
                out.append(text[at:m.start()])
                if kind == "place":
                    out.append("c")
                    if r != env.get("c"):
                        left(self.where, "a place as a value:", m.group(0))
                elif kind == "step":
                    out.append(".".join(r[0]))
                else:
                    out.append(".".join(r))
                at = m.end()
            elif name in steps and fields:
                out.append(text[at:m.start()])
                out.append(".".join([name] + self.new_fields(steps[name], fields)))
                at = m.end()
            elif name in rename:
                out.append(text[at:m.start()])
                out.append(rename[name] + (path or ""))
                at = m.end()
            pos = m.end()
        out.append(text[at:])
        return re.sub(r"\n[ \t]*(?=\n)", "", re.sub(r"[ \t]+\n", "\n", "".join(out)))


RAW = re.compile(r"(?<![\w.'-])(not-true|not-false|eqb-true|eqb-false|leb-true|leb-false|ltb-true|ltb-false)(?=\s)")


def atom(text, i):
    """The end of the atom that begins at i (after spaces), or None."""
    while i < len(text) and text[i] in " \n":
        i += 1
    if i >= len(text):
        return None
    if text[i] == "(":
        depth = 0
        for j in range(i, len(text)):
            depth += {"(": 1, ")": -1}.get(text[j], 0)
            if depth == 0:
                j += 1
                m = re.compile(r"(?:\.[\w'-]+)*").match(text, j)
                return m.end()
        return None
    m = re.compile(r"[^\s()\[\],;]+").match(text, i)
    return m.end() if m else None


def raws(text):
    """`not-true _ c.if-x.true-raw` as `c.if-x.true`: the test's fact is read by today's Rattle itself."""
    pos = 0
    while True:
        m = RAW.search(text, pos)
        if not m:
            return text
        i = m.end()
        for _ in range(1 if m.group(1).startswith("not") else 2):
            i = atom(text, i) if i is not None else None
        j = atom(text, i) if i is not None else None
        last = text[i:j].strip() if j is not None else ""
        r = re.fullmatch(r"(c\.[\w'.-]+)\.(true|false)-raw", last)
        if r:
            new = r.group(1) + "." + r.group(2)
            text = text[:m.start()] + new + text[j:]
            pos = m.start() + len(new)
        else:
            pos = m.end()


def decls(text):
    """(imports, [(name, comment, signature, unfolding, clauses)])"""
    chunks, cur = [], None
    for line in text.split("\n"):
        if line and not line[0].isspace() and not (line[0] in "})" and cur):
            if cur is not None:
                chunks.append(cur)
            cur = line
        elif cur is not None:
            cur += "\n" + line
    if cur is not None:
        chunks.append(cur)
    chunks = [c.rstrip() for c in chunks]
    imports, out, notes = [], [], []
    for c in chunks:
        if c.startswith("--"):
            notes.append(c)
            continue
        if c.startswith("use ") or c.startswith("pub use "):
            imports.append(c)
            continue
        m = re.match(rf"((?:pub |abbrev |unfoldable )*)({ID})\s*:\s", c)
        if m and not c.startswith("unfolding"):
            out.append({"name": m.group(2), "mods": m.group(1), "notes": notes, "sig": c[m.end():], "unf": None, "clauses": [], "raw": [c]})
            notes = []
        elif c.startswith("unfolding ") and out:
            out[-1]["unf"] = c
            out[-1]["raw"].append(c)
        elif re.match(r"(module|pub module|data|pub data|record|pub record|pub abbrev)\b", c):
            out.append({"name": None, "mods": "", "notes": notes, "sig": "", "unf": None, "clauses": [], "raw": [c]})
            notes = []
        elif out:
            out[-1]["clauses"].append(c)
            out[-1]["raw"].append(c)
            if notes:
                out[-1]["notes"] += notes
                notes = []
        else:
            imports.append(c)
    return imports, out


HEAD = {}


def convert(crate, folder, path, entry):
    where = os.path.relpath(folder, os.path.join(crate, "proofs"))
    f = Fn(entry, where)
    with open(os.path.join(folder, "Proof.antt"), encoding="utf-8") as fh:
        text = fh.read()
    head = []
    for line in text.split("\n"):
        if line.startswith("--"):
            head.append(line)
        else:
            break
    body = "\n".join(text.split("\n")[len(head):])
    imports, ds = decls(body)
    spec = [d for d in ds if d["name"] and canon(d["name"]).endswith("-spec") and "statement" in d["sig"]]
    if len(spec) != 1:
        left(where, "no one spec")
        return False
    full = "\n".join(spec[0]["clauses"])
    m = re.search(r"tie\.spec\b([^)]*)\)?", full)
    if not m or "tie.close" not in full:
        left(where, "no tie.close (tie.spec ..)")
        return False
    args = m.group(1).split()
    byname = {d["name"]: d for d in ds if d["name"]}
    loops = [a for a in args if a in byname and re.match(r"tie\.(invariant|decreases)", byname[a]["sig"].strip())]
    needs = [a for a in args if a not in loops]
    if any(a not in byname for a in needs):
        left(where, "an argument of tie.spec that is no declaration:", *[a for a in needs if a not in byname])
        return False
    idx = {}
    if len(needs) == len(f.needs):
        for k, a in enumerate(needs):
            idx[a] = k
    else:
        olds = {}
        for k, (o, n) in enumerate(f.needs):
            olds.setdefault(canon(o), k)
        for a in needs:
            sig = byname[a]["sig"].split()[0]
            key = canon(re.sub(r"^tie\.Need-", "", sig))
            for cut in ("", "overflow-", "slice-bounds-"):
                kk = key[len(cut):] if key.startswith(cut) else None
                if kk in olds:
                    idx[a] = olds[kk]
                    break
                if kk and "part-" + kk in olds:
                    idx[a] = olds["part-" + kk]
                    break
            else:
                if canon(a) in olds:
                    idx[a] = olds[canon(a)]
        missing = [a for a in needs if a not in idx]
        if missing:
            left(where, f"{len(needs)} old needs, {len(f.needs)} now; not found:", *missing)
    rename = {a: f.needs[k][1] for a, k in idx.items()}
    loopmap = {}
    # loops: old name -> new
    lnames = f.e["loops"]
    invs = [a for a in loops if "invariant" in byname[a]["sig"]]
    decs = [a for a in loops if "decreases" in byname[a]["sig"]]
    if max(len(invs), len(decs)) > len(lnames):
        left(where, "more loops in the proof than in the code")
        return False
    inv_out = []
    for group, word in ((invs, "invariant"), (decs, "decreases")):
        for a in group:
            d = byname[a]
            which = re.match(rf"tie\.{word}-(\S+)", d["sig"].strip()).group(1)
            k = next((i for i, l in enumerate(lnames) if canon(l[0][0]) == canon(which)), None)
            if k is None:
                left(where, "no loop", which)
                return False
            new = f"{word}-{lnames[k][0][1]}"
            rename[a] = new
            vs, ch = lnames[k][1], f.e["changed"][k]
            values = [(v, f"l.initial.{v}" if c else f"l.{v}") for v, c in zip(vs, ch)] + [(v, f"l.{v}") for v, c in zip(vs, ch) if c]
            cl = "\n".join(d["clauses"])
            hm = re.match(rf"{re.escape(a)}((?:\s+[^\s=]+)*)\s*=", cl)
            if not hm:
                left(where, "an invariant with no one clause", a)
                return False
            ps = hm.group(1).split()
            if len(ps) != len(values):
                left(where, f"loop {which}: {len(ps)} old parameters, {len(values)} now:", " ".join(ps), "/", " ".join(v for v, _ in values))
                m2 = {}
                for v, t in values:
                    m2.setdefault(canon(v) + ("\u2080" if t.startswith("l.initial") else ""), t)
                sub = {p: m2.get(canon(p), "l." + p) for p in ps}
            else:
                sub = {p: t for p, (v, t) in zip(ps, values)}
            b = cl[hm.end():]
            for p in ps:
                if p != "_" and re.search(rf"\(\s*{re.escape(p)}\s+[^)]*:|\({re.escape(p)}\s*:|λ\s+{re.escape(p)}\b", b):
                    left(where, "a bound variable is named as a parameter:", p)
            b = PATHRE.sub(lambda m: (sub[m.group(1)] + (m.group(2) or "")) if m.group(1) in sub else m.group(0), b)
            inv_out.append((d["notes"], f"abbrev pub {new} : goal.{new}", d["unf"], f"{new} l ={b}"))
    helpers = [d for d in ds if d["name"] not in idx and d["name"] not in loops and d is not spec[0] and d["name"] not in needs]
    answers = []
    for d in ds:
        if d is spec[0] or d["name"] in loops:
            continue
        if d in helpers:
            tyenv = {}
            raw = "\n".join(d["raw"])
            for v, pl in re.findall(rf"\(({ID})\s*:\s*tie\.({ID})", raw):
                p = f.place(pl)
                if p is None:
                    left(where, "a helper over", pl)
                else:
                    tyenv[v] = p
            # one type's variables in the signature, the clause's own in the body: by position
            sigvars = re.findall(rf"\(({ID})\s*:\s*([^()]*)", d["sig"])
            raw = re.sub(rf"tie\.({ID})((?:\s+(?:invariant|decreases)-\S+)*)", lambda m: ("goal." + f.names[f.place(m.group(1))]) if f.place(m.group(1)) is not None else m.group(0), raw)
            for d2 in d["clauses"]:
                hm = re.match(rf"{re.escape(d['name'] or '?')}((?:\s+[^\s=]+)*)\s*=", d2)
                if hm:
                    for p, (v, ty) in zip(hm.group(1).split(), sigvars):
                        pm = re.match(rf"tie\.({ID})", ty.strip())
                        if pm and f.place(pm.group(1)) is not None:
                            tyenv[p] = f.place(pm.group(1))
            if tyenv:
                keep = {}
                done = raws(f.expr(raw, tyenv, rename))
                # paths say c: the variable must be c
                answers.append((d["notes"], done, False))
                if set(tyenv) != {"c"}:
                    left(where, "a helper's variables:", d["name"], *tyenv)
            else:
                answers.append((d["notes"], f.expr(raw, {}, rename), False))
            continue
        if d["name"] not in idx:
            left(where, "no goal for", d["name"], ":", d["sig"].split()[0])
            continue
        k = idx[d["name"]]
        new = f.needs[k][1]
        place = f.place(f.asked[k][0])
        cl = "\n".join(d["clauses"])
        hm = re.match(rf"{re.escape(d['name'])}((?:\s+[^\s=]+)*)\s*=", cl)
        if not hm:
            left(where, "an answer with no one clause:", d["name"])
            answers.append((d["notes"], "\n".join(d["raw"]), False))
            continue
        ps = [p for p in hm.group(1).split()]
        var = ps[0] if ps else "c"
        env = {var: place} if var != "_" else {}
        b = f.expr(cl[hm.end():], env, rename)
        plain = re.sub(r"\s+", " ", b).strip()
        b = raws(b)
        text = f"pub {new} : goal.{new}\n" + (d["unf"] + "\n" if d["unf"] else "") + f"{new} {' '.join(['_' if var == '_' else 'c'] + [p for p in ps[1:] if p not in ('κs', 'ks')])} ={b}"
        answers.append((d["notes"], text, plain in ("search rules", "(search rules)") and not d["unf"]))
    kept = []
    for k, (notes, t, bare) in enumerate(answers):
        name = re.match(rf"(?:pub |abbrev )*({ID})", t)
        used = name and any(re.search(rf"(?<![\w.'-]){re.escape(name.group(1))}(?![\w'-])", o) for j, (_, o, _) in enumerate(answers) if j != k)
        if not bare or used:
            kept.append((notes, t))
    base = f"Rattle.{os.path.basename(crate)}.proofs.{where.replace('/', '.')}"
    imps = [i for i in imports if not re.search(r"\.(Statement\.\{statement\}|Tie as tie)", i)]
    moved = []
    if inv_out:
        body = "\n".join(t[3] for t in inv_out)
        wanted, more = [], True

        def dname(d):
            m = re.match(rf"(?:pub )?(?:abbrev |record |data |unfoldable )*(?:pub )?({ID})", d["raw"][0])
            return d["name"] or (m.group(1) if m else None)

        while more:
            more = False
            for d in helpers:
                n = dname(d)
                if n and d not in wanted and re.search(rf"(?<![\w.'-]){re.escape(n)}(?![\w'-])", body + "\n".join("\n".join(w["raw"]) for w in wanted)):
                    wanted.append(d)
                    more = True
        wanted = [d for d in helpers if d in wanted]
        for d in wanted:
            if "tie." in "\n".join(d["raw"]):
                left(where, "a helper of the invariant over a place:", dname(d))
        moved = [dname(d) for d in wanted]
        with open(os.path.join(folder, "Invariants.antt"), "w", encoding="utf-8") as fh:
            fh.write("\n".join(head + imps + [f"use {base}.Given as goal"]) + "\n")
            for d in wanted:
                raw = list(d["raw"])
                if raw[0].startswith(("record ", "data ")):
                    raw[0] = "pub " + re.sub(rf"(?m)^  (?!pub )({ID}) :", r"  pub \1 :", raw[0])
                elif raw[0].startswith("abbrev "):
                    raw[0] = raw[0].replace("abbrev ", "abbrev pub ", 1)
                elif not raw[0].startswith("pub "):
                    raw[0] = "pub " + raw[0]
                fh.write("\n" + "\n".join(d["notes"] + raw) + "\n")
            for notes, sig, unf, clause in inv_out:
                fh.write("\n" + "\n".join(notes + [sig] + ([unf] if unf else []) + [clause]) + "\n")
        gone = {id(d) for d in wanted}
        kept = [(n, t) for n, t in kept if not any(t.startswith(w["raw"][0].split("\n")[0]) for w in wanted)]
        if moved and kept:
            imps = imps + [f"use {base}.Invariants.{{{', '.join(moved)}}}"]
    if any(not isinstance(x, type(None)) for x in kept) and kept:
        with open(os.path.join(folder, "Answers.antt"), "w", encoding="utf-8") as fh:
            fh.write("\n".join(([] if inv_out else head) + imps + [f"use {base}.Goals as goal"]) + "\n")
            for notes, t in kept:
                fh.write("\n" + "\n".join(notes + [t]) + "\n")
    os.remove(os.path.join(folder, "Proof.antt"))
    if not inv_out and not kept:
        left(where, "(no file is left: Rattle's own tactics are to prove it)")
    return True


def main(argv):
    crate = os.path.abspath(argv[0]).rstrip("/")
    only = set(argv[1:])
    out = tempfile.mkdtemp()
    r = subprocess.run(["rt", "check", "--generated", out, "--old-names"], cwd=crate, capture_output=True, text=True)
    try:
        with open(os.path.join(out, "names.json"), encoding="utf-8") as fh:
            names = json.load(fh)
    except OSError:
        print(r.stdout[-3000:], r.stderr[-1000:])
        return 1
    name = os.path.basename(crate)
    n = m = 0
    for folder, dirs, files in os.walk(os.path.join(crate, "proofs")):
        if "Proof.antt" not in files:
            continue
        rel = os.path.relpath(folder, os.path.join(crate, "proofs"))
        if only and rel not in only:
            continue
        key = f"Rattle-{name}-proofs.{rel.replace('/', '.')}.Lts"
        if key not in names:
            left(rel, "not in names.json")
            continue
        m += 1
        try:
            n += bool(convert(crate, folder, rel, names[key]))
        except Exception as e:
            left(rel, "the converter failed:", repr(e))
            raise
    print(f"converted {n} of {m}")
    return 0


if __name__ == "__main__":
    raise SystemExit(main(sys.argv[1:]))
