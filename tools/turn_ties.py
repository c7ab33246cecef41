#!/usr/bin/env python3
"""Turns the names in Proof.antt files from the older Rattle's to today's.

usage: tools/turn_ties.py CRATE NAMES.json    at the top of the checkout, once for each crate

NAMES.json is what `rattle check --generated DIR --old-names` writes in the crate. It has each goal, place and step with its old and its new name.
A chain as `c.before.before.if1.true` is read from the place of `c`: that of the goal that the clause answers, or the one that the signature names.
What could not be turned is printed.
"""

import json
import os
import re
import sys

W = r"(?:«\w+»|[^\s(){}.;,@\"«»\[\]\\:]+)"
ALIAS = re.compile(r"use (Rattle\.\S+)\.(Tie|Lts(?:-" + W + r")?) as (" + W + r")")
CHAIN = re.compile(r"(?<![\w'.·-])(" + W + r")((?:\.before)*)((?:\." + W + r")*)")
left = []


def norm(x):
    return x.replace("_", "-").lower().strip("«»")


class Function:
    def __init__(self, of):
        self.needs = {}
        self.place_of_need = {}
        for (old, new), at in zip(of["needs"], of["asked_at"]):
            self.needs[norm(old)] = new
            self.place_of_need[norm(old)] = at[0]
        self.places = {}
        self.steps = {}
        for at, new in zip(of["places"], of["places_by_name"]):
            self.places[at[0]] = (new, at[1], at[2][0], at[2][1])
            if at[2][0]:
                self.steps.setdefault(norm(at[2][0]), set()).add(at[2][1])
        self.by_norm = {norm(k): k for k in self.places}
        self.loops = {norm(l[0][0]): l[0][1] for l in of["loops"]}
        self.args = dict(tuple(x) for x in of["args"])


def load(crate, path):
    listed = json.load(open(path, encoding="utf-8"))
    found = {}
    for key, of in listed.items():
        m = re.fullmatch(r"Rattle-%s-proofs\.(.*)\.(Lts(?:-.*)?)" % crate, key)
        if m:
            found[(m.group(1), m.group(2))] = Function(of)
    return found


def turn(text, path, functions, crate):
    aliases = {}
    for m in ALIAS.finditer(text):
        mod = re.sub(r"^Rattle\.%s\.proofs\." % crate, "", m.group(1))
        lts = "Lts" if m.group(2) == "Tie" else m.group(2)
        f = functions.get((mod, lts))
        if f is None:
            lts = "Lts-" + lts[4:].replace("-", "_")
            f = functions.get((mod, lts))
        if f is None and m.group(2) != "Tie":
            left.append(f"{path}: no names for {mod} {lts}")
        if f is not None:
            aliases[m.group(3)] = f

    def name_in(f, x):
        """The new name of a need, a place or a loop's definition, with the place."""
        if x.startswith("Need-"):
            n = norm(x[5:])
            for old, new in (("overflow-", ""), ("nonzero-", ""), ("slice-bounds-", "part-")):
                if n not in f.needs and n.startswith(old):
                    n = new + n[len(old) :]
            if n in f.needs:
                return "Need-" + f.needs[n], f.place_of_need[n]
            left.append(f"{path}: need {x}")
            return x, None
        for word in ("invariant-", "decreases-"):
            if x.startswith(word):
                l = norm(x[len(word) :])
                return word + f.loops.get(l, x[len(word) :]), None
        if x in f.places or norm(x) in f.by_norm:
            p = x if x in f.places else f.by_norm[norm(x)]
            return f.places[p][0], p
        return x, None

    # Declarations, each with the lines that belong to it.
    lines = text.split("\n")
    blocks, now = [], []
    for l in lines:
        stripped = l.lstrip()
        indent = len(l) - len(stripped)
        if stripped and (indent == 0 or (indent == 2 and re.match(r"(abbrev |pub |unfoldable )?" + W + r" (:|.*=)", stripped))) and not l.startswith((")", "]", "}")):
            blocks.append(now)
            now = [l]
        else:
            now.append(l)
    blocks.append(now)

    opened = []  # module binders: (indent, {var: (f, place)})
    sigs = {}
    asks = {}
    gives = {}
    out = []
    for block in blocks:
        head = block[0] if block else ""
        body = "\n".join(block)
        indent = len(head) - len(head.lstrip())
        if head.strip() and indent == 0 and not head.startswith("--"):
            opened = []
        known, fs = {}, set()
        for vs, at in opened:
            known.update(at)

        def binders(txt):
            at = {}
            for m in re.finditer(r"[({](" + W + r"(?: " + W + r")*) : \(?(" + W + r")\.(" + W + r")", txt):
                if m.group(2) in aliases:
                    f = aliases[m.group(2)]
                    p = name_in(f, m.group(3))[1]
                    if p:
                        for v in m.group(1).split(" "):
                            at[v] = (f, p)
            return at

        if head.lstrip().startswith("module"):
            opened.append((indent, binders(body)))
        else:
            m = re.match(r"\s*(?:abbrev |unfoldable )?(?:pub )?(" + W + r") :(?: |$)", head)
            if m:
                known.update(binders(body))
                sigs[m.group(1)] = body
                last = re.search(r"(?:→|:) (" + W + r")\.(" + W + r")(?: \([^→]*)?\s*$", body.split("\n" + " " * indent + m.group(1) + " ")[0].rstrip())
                if last and last.group(1) in aliases:
                    f = aliases[last.group(1)]
                    p = name_in(f, last.group(2))[1]
                    if p:
                        gives[m.group(1)] = (f, p)
            m = re.match(r"\s*(" + W + r")((?: [^=]*)?) =(?: |$)", head)
            if m and m.group(1) in sigs:
                sig = sigs[m.group(1)]
                args = re.findall(r"\{[^}]*\}|\([^)]*\)|" + W, m.group(2))
                args = [a for a in args if not a.startswith("{")]
                known.update(binders(sig))
                need = re.search(r"(" + W + r")\.(Need-" + W + r")", sig)
                if need and need.group(1) in aliases:
                    f = aliases[need.group(1)]
                    p = name_in(f, need.group(2))[1]
                    given = [a for a in args if a not in ("t", "g")]
                    if p and given:
                        known[given[0]] = (f, p)
                else:
                    # positional: split the signature at its arrows
                    typ = re.sub(r"^[^:]*: ?", "", sig, count=1)
                    depth, parts, cur = 0, [], ""
                    for ch in typ:
                        if ch in "({":
                            depth += 1
                        if ch in ")}":
                            depth -= 1
                        if ch == "→" and depth == 0:
                            parts.append(cur.strip())
                            cur = ""
                        else:
                            cur += ch
                    parts.append(cur.strip())
                    flat = []
                    for p_ in parts:
                        if p_.startswith("{"):
                            continue
                        groups = re.findall(r"\(([^():]*) : ([^()]*(?:\([^()]*\)[^()]*)*)\)", p_) if p_.startswith("(") else []
                        if groups:
                            for vs, ty in groups:
                                flat += [ty] * len(vs.split())
                        else:
                            flat.append(p_)
                    for a, ty in zip(args, flat):
                        q = re.match(r"(" + W + r")\.(" + W + r")", ty)
                        if q and q.group(1) in aliases:
                            f = aliases[q.group(1)]
                            p = name_in(f, q.group(2))[1]
                            if p:
                                known[a] = (f, p)
                                asks[m.group(1)] = (f, p)
                    for v, at in known.items():
                        if opened and any(v in x for _, x in opened):
                            asks.setdefault(m.group(1), at)

        argument = set()

        def chain(m):
            var, befores, fields = m.group(1), m.group(2).count(".before"), m.group(3)
            whole = m.group(0)
            if var in aliases and not befores and fields:
                first = fields[1:].split(".")[0]
                rest = fields[1 + len(first) :]
                return f"{var}.{name_in(aliases[var], first)[0]}{rest}"
            if not fields:
                if befores and var in known:
                    f, p = known[var]
                    # What stands before it: a helper that asks for a place.
                    ahead = m.string[: m.start()].rstrip()
                    g = re.search(r"(" + W + r")((?: (?:t|κs|" + W + r"))?)$", ahead)
                    wanted = None
                    for name in ([g.group(1), g.group(2).strip()] if g else []):
                        if name in asks:
                            wanted = asks[name]
                    if wanted and wanted[0] is f:
                        q, back = p, 0
                        while q is not None and q != wanted[1]:
                            q, back = f.places[q][1], back + 1
                        if q is not None:
                            return var + ".before" * back
                        left.append(f"{path}: {whole}: no {wanted[1]} before {p}")
                return whole
            parts = fields[1:].split(".")
            if var in known:
                f, p = known[var]
                q, back, hit = p, 0, None
                if parts[0] == "pre":
                    parts[0] = "requires"
                of_start = norm(parts[0]) not in f.steps
                while q is not None:
                    step = f.places[q]
                    if back >= befores and (norm(step[2]) == norm(parts[0]) if not of_start else step[1] is None):
                        hit = back
                        break
                    q, back = step[1], back + 1
                if hit is None:
                    # Places that the older Rattle made are gone: the nearest below.
                    q, back = p, 0
                    while q is not None:
                        step = f.places[q]
                        if norm(step[2]) == norm(parts[0]) if not of_start else step[1] is None:
                            hit = back
                        q, back = step[1], back + 1
                    if hit is None or of_start and parts[0] not in ("args", "requires", "ranges", "pre"):
                        left.append(f"{path}: not found: {whole} from {p}")
                        return whole
                    q = p
                    for _ in range(hit):
                        q = f.places[q][1]
                if hit != befores and of_start and parts[0] not in ("args", "requires", "ranges", "pre"):
                    left.append(f"{path}: look at: {whole} from {p}")
                    hit = befores
                elif not of_start:
                    parts[0] = f.places[q][3]
                    if parts[0].startswith("in-") and len(parts) > 1 and re.fullmatch(r"keys\d*", parts[1]):
                        parts[1] = "is"
                befores = hit
                for k, v in f.args.items():
                    k, v = k.strip().split(" ."), v.strip().split(" .")
                    k = [x.strip(". ") for x in k]
                    v = [x.strip(". ") for x in v]
                    if len(k) == 2 and len(parts) > 1 and parts[0] == k[0] and parts[1] == k[1]:
                        parts[1] = v[1]
                    elif len(k) == 1 and parts[0] == k[0]:
                        parts[0] = v[0]
                return f"{var}{'.before' * befores}." + ".".join(parts)
            return whole

        # let-bound places and arguments
        for m in re.finditer(r"let (" + W + r") = (" + W + r")((?:\.before)*)((?: (?:" + W + r"(?:\." + W + r")*))*?) in", body):
            v, base, n = m.group(1), m.group(2), m.group(3).count(".before")
            if base in gives and m.group(4) and not n:
                known[v] = gives[base]
            elif base in known and not m.group(4):
                f, p = known[base]
                for _ in range(n):
                    p = f.places[p][1] if p else None
                if p:
                    known[v] = (f, p)
        if not head.startswith(("use ", "--")):
            m = re.fullmatch(r"(\s*(" + W + r")(?: [^=]*)? = )(" + W + r")((?:\.before)*)\s*", body)
            if m and m.group(2) in gives and m.group(3) in known and known[m.group(3)][0] is gives[m.group(2)][0]:
                f, p = known[m.group(3)]
                q, back = p, 0
                while q is not None and q != gives[m.group(2)][1]:
                    q, back = f.places[q][1], back + 1
                if q is not None:
                    body = m.group(1) + m.group(3) + ".before" * back
                else:
                    left.append(f"{path}: {body}: no {gives[m.group(2)][1]} before {p}")
            else:
                body = CHAIN.sub(chain, body)
            for m in re.finditer(r"let (" + W + r") = [^=]*?\.args in", body):
                argument.add(m.group(1))
            for v in argument:
                for f in set(aliases.values()):
                    for k, w in f.args.items():
                        if k.startswith(".args ."):
                            body = re.sub(r"(?<![\w.·'-])" + re.escape(v) + r"\." + re.escape(k[7:]) + r"(?![\w'-])", f"{v}.{w[7:]}", body)
        out.append(body)
    text = "\n".join(b for b in out)
    return text[1:] if text.startswith("\n") and not lines[0] == "" else text


def main():
    crate, listed = sys.argv[1:3]
    functions = load(crate, listed)
    for folder, dirs, names in os.walk(f"crates/{crate}/proofs"):
        for n in sorted(names):
            if n != "Proof.antt":
                continue
            path = os.path.join(folder, n)
            text = open(path, encoding="utf-8").read()
            new = turn(text, path, functions, crate)
            own = re.sub(r"^crates/%s/proofs/" % crate, "", folder).split("/")[-1]
            # The theorem's name.
            spec = own.replace("_", "-") + "-spec"
            new = re.sub(r"(?<![^\s])" + re.escape(spec) + r"(?![^\s:])", own + "_spec", new)
            if "+" in own:
                new = re.sub(r"(?m)^(pub )?\+\S+-spec(?= )", lambda m: (m.group(1) or "") + own + "_spec", new)
            if own + "_spec" not in new:
                left.append(f"{path}: no {own}_spec")
            open(path, "w", encoding="utf-8").write(new)
    for l in left:
        print(l)


main()
