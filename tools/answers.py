#!/usr/bin/env python3
"""Turns a proof of the older form, proofs/F/Proof.antt over the steps of a function, into Invariants.antt and Answers.antt.

usage: tools/answers.py NAMES CRATE..

NAMES is the folder that `rt names NAMES` wrote at the top of the repository. An answer that is `search rules` is left out.
What was not understood is kept as it stands behind a line `-- left:`.
"""
import json
import os
import re
import sys

ID = r"[^\s(){}.;,@\"«»]+"
TOP = os.path.dirname(os.path.dirname(os.path.realpath(__file__)))


def plain(s):
    return s.replace("-", "_")


class Names:
    def __init__(self, data):
        self.data = data
        self.places = {}
        self.order = []
        for i, p in enumerate(data["places"]):
            self.places[p[0]] = dict(i=i, parent=p[1], old=p[2][0], new=p[2][1], fn=p[3], typed=data["typed"][i], arm=data["arms"][i], by=data["places_by_name"][i])
            self.order.append(p[0])
        self.needs = [(o, n) for o, n in data["needs"]]
        self.asked = data["asked_at"]
        self.loops = {l[0][0]: (l[0][1], l[1], data["changed"][k] if k < len(data["changed"]) else None) for k, l in enumerate(data["loops"])}

    def need(self, name):
        name = plain(name)
        cands = [name]
        for pre in ("overflow_", "slice_bounds_", "nonzero_"):
            if name.startswith(pre):
                cands.append(name[len(pre):])
                if pre == "slice_bounds_":
                    cands.append("part_" + name[len(pre):])
        for c in cands:
            for i, (o, n) in enumerate(self.needs):
                if plain(o) == c:
                    return i
        return None

    def place_of(self, name):
        for p in self.places:
            if plain(p).lower() in (plain(name).lower(), plain(name).lower() + "_unread"):
                return p
        for p, v in self.places.items():
            if plain(v["by"]) == plain(name):
                return p
        return None

    def up(self, place):
        while place is not None:
            yield place
            place = self.places[place]["parent"]

    def children(self, place):
        return place

    def field(self, place, rest, problems):
        """The new path behind `c` for the old path rest (a list of fields) at a place."""
        f = rest[0]
        if f in ("args", "requires", "pre", "lifetimes", "ranges", "fits"):
            return [{"pre": "requires", "fits": "ranges"}.get(f, f)] + rest[1:]
        # the place whose field it is
        for p in self.up(place):
            v = self.places[p]
            old, f_ = plain(v["old"]).lower(), plain(f).lower()
            if f_ in (old, old + "_lem") or re.sub(r"_?(\d+)$", r"\1", f_) == old:
                return self.at(place, p, v, rest, problems)
        problems.append("no field " + ".".join(rest))
        return rest

    def at(self, place, p, v, rest, problems):
        tail = rest[1:]
        if tail[:1] == ["inv"]:
            tail = ["invariant"] + tail[1:]
        if tail[:1] == ["given"] and ("known" in v["old"]) and not v["arm"]:
            for var, old in self.places[place]["typed"]:
                if plain(old) == plain(v["old"]):
                    return ["type_inv", var] + tail[1:]
            return [v["new"]] + tail
        if v["arm"] or tail[:1] == ["given"]:
            # an arm: of all places from here up to p, the last that has the arm's names
            for q in [p] + [q for q in self.order if p in list(self.up(q)) and q in list(self.up(place))]:
                arm = self.places[q]["arm"]
                if not arm:
                    continue
                best = None
                for new, old, path in arm[2]:
                    if plain(old) == plain(v["old"]) and tail[: len(path)] == path and path:
                        if best is None or len(path) > len(best[1]):
                            best = (new, path)
                if best:
                    return [arm[0], best[0]] + tail[len(best[1]):]
        for old, (new, live, changed) in self.loops.items():
            if plain(old) == plain(v["old"]) and v["new"] == new:
                if tail and tail[0] not in ("invariant", "auto", "decreases"):
                    if changed and tail[0] in live and not changed[live.index(tail[0])]:
                        return ["args", tail[0]] + tail[1:]
                return [new] + tail
        if tail[:1] == ["new"] and len(tail) > 1 and re.fullmatch(r"\d+", tail[1]) and v["fn"]:
            names = self.data["params"].get(v["fn"], [])
            k = int(tail[1])
            if k < len(names):
                return [v["new"], "new", names[k]] + tail[2:]
        return [v["new"]] + tail


def decls(text):
    """Chunks of top-level declarations: (comment, text)."""
    lines = text.split("\n")
    chunks, comment, cur = [], [], None
    for line in lines:
        if line.startswith("--"):
            if cur is not None:
                chunks.append(cur)
                cur = None
            comment.append(line)
            continue
        if line.strip() == "":
            if cur is not None:
                chunks.append(cur)
                cur = None
            elif comment and not chunks:
                pass
            continue
        if cur is None:
            cur = [comment, [line]]
            comment = []
        else:
            cur[1].append(line)
    if cur is not None:
        chunks.append(cur)
    return [(c, "\n".join(b)) for c, b in chunks]


def convert(text, names, crate, fn):
    uses, body = [], []
    lines = text.split("\n")
    header = []
    i = 0
    while i < len(lines) and lines[i].startswith("--"):
        header.append(lines[i])
        i += 1
    rest = []
    while i < len(lines):
        if lines[i].startswith("use "):
            u = lines[i]
            while u.count("{") > u.count("}"):
                i += 1
                u += " " + lines[i].strip()
            uses.append(u)
        else:
            rest.append(lines[i])
        i += 1
    problems = []
    invs, answers = [], []
    loopnames = {}
    helpers = {}
    wheres = {}
    parsed = []
    for comment, chunk in decls("\n".join(rest)):
        m = re.match(r"(?:abbrev |pub |unfoldable )*(" + ID + r") :", chunk)
        if not m:
            parsed.append(("left", None, comment, chunk))
            continue
        name = m[1]
        if re.match(r"pub " + re.escape(name) + r" : \{M : Type 1\}", chunk):
            continue
        sig, sep, definition = chunk.partition("\n")
        # the signature may go over several lines: it ends where a line begins with the name
        ls = chunk.split("\n")
        k = 1
        while k < len(ls) and not re.match(re.escape(name) + r"(\s|$)", ls[k]) and not ls[k].startswith("unfolding"):
            k += 1
        sig = " ".join(x.strip() for x in ls[:k])
        unfold = []
        while k < len(ls) and ls[k].startswith("unfolding"):
            unfold.append(ls[k])
            k += 1
        definition = "\n".join(ls[k:])
        n = re.search(r": (?:abbrev )?tie\.Need-(" + ID + r")", sig)
        inv = re.match(r"(?:abbrev )?(?:pub )?" + re.escape(name) + r" : tie\.(invariant|decreases)_(" + ID + r")", sig)
        if n and re.search(r" : tie\.Need-" + re.escape(n[1]), sig):
            parsed.append(("need", n[1], comment, name, unfold, definition))
        elif inv:
            parsed.append(("inv", inv[1], inv[2], comment, name, definition))
            loopnames[name] = (inv[1], inv[2])
        else:
            h = re.search(r"\((" + ID + r") : tie\.(" + ID + r")", sig)
            arrow = re.match(r"(?:abbrev )?" + re.escape(name) + r" : (?:\(" + ID + r" : )?tie\.(" + ID + r")[^()→]*\)? → tie\.(" + ID + r")[^()→]*$", sig)
            if arrow and names.place_of(arrow[1]) and names.place_of(arrow[2]):
                wheres[name] = names.place_of(arrow[2])
                continue
            if h:
                helpers[name] = (h[1], names.place_of(h[2]), h[2])
            parsed.append(("helper", name, comment, sig, unfold, definition, ls))

    def paths(body, root, place, need):
        """The body with the paths from places turned to fields of c."""
        roots = {root: place}
        # what only names a part of what a step gives
        while True:
            m = re.search(r"(?<![\w'-])let (" + ID + r") = (" + ID + r"(?:\.[^\s(){}.;,@\"«»]+)*\.given(?:\.\d+)*) in[ \n]\s*", body)
            if not m:
                break
            after = re.sub(r"(?<![^\s({,;])" + re.escape(m[1]) + r"(?![^\s(){}.;,])", lambda _: m[2], body[m.end():])
            body = body[: m.start()] + after
        # what only names a place
        extra = 0
        while wheres:
            m = re.search(r"\((" + "|".join(map(re.escape, wheres)) + r") (" + "|".join(map(re.escape, roots)) + r")((?:\.before)*)\)", body) or re.search(r"(?<=[= (,])(" + "|".join(map(re.escape, wheres)) + r") (" + "|".join(map(re.escape, roots)) + r")((?:\.before)*)(?= in[ \n])", body)
            if not m:
                l = re.search(r"(?<![\w'-])let (" + ID + r") = (" + "|".join(map(re.escape, roots)) + r")((?:\.before)*) in[ \n]\s*", body)
                if not l:
                    break
                p = roots[l[2]]
                steps = l[3].count(".before")
                while steps and p is not None and names.places[p]["parent"]:
                    p = names.places[p]["parent"]
                    steps -= 1
                roots[l[1]] = p
                body = body[: l.start()] + body[l.end():]
                continue
            extra += 1
            roots[f"here§{extra}"] = wheres[m[1]]
            body = body[: m.start()] + f"here§{extra}" + body[m.end():]
        while True:
            m = re.search(r"(?<![\w'-])let (" + ID + r") = (" + "|".join(map(re.escape, roots)) + r")((?:\.before)*) in[ \n]\s*", body)
            if not m:
                break
            p = roots[m[2]]
            steps = m[3].count(".before")
            while steps and p is not None and names.places[p]["parent"]:
                p = names.places[p]["parent"]
                steps -= 1
            roots[m[1]] = p
            body = body[: m.start()] + body[m.end():]
        alt = "|".join(sorted(map(re.escape, roots), key=len, reverse=True))

        def one(m):
            steps = [s for s in m[2].split(".") if s]
            r = m[1]
            k = 0
            p = roots[r]
            while k < len(steps) and steps[k] == "before":
                k += 1
                if p is not None and names.places[p]["parent"]:
                    p = names.places[p]["parent"]
            if k == len(steps):
                return f"\0{p}\0{m[0]}\0"
            return ".".join(["c"] + names.field(place, steps[k:], problems))

        body = re.sub(r"(?<![^\s({,;])(" + alt + r")((?:\.[^\s(){}.;,@\"«»]+)*)(?![^\s(){}.;,])", one, body)

        # a whole place that a helper takes
        def whole(m):
            h = m[1]
            target = helpers[h][1]
            by = names.places[target]["by"] if target else "LEFT"
            if need is None:
                if target == place:
                    return f"{h} c"
                return f"{h} c.TODO-{by}"
            return f"{h} (goal.at.{need} c).{by}"

        if helpers:
            body = re.sub(r"(?<![\w'.-])(" + "|".join(map(re.escape, helpers)) + r") \0([^\0]*)\0([^\0]*)\0", whole, body)

        def bare(m):
            p = m[1]
            if need is not None and p in names.places:
                if p == place:
                    return f"(goal.at.{need} c).{names.places[p]['by']}"
                return f"(goal.at.{need} c).{names.places[p]['by']}"
            return m[2]

        body = re.sub(r"\0([^\0]*)\0([^\0]*)\0", bare, body)
        # a test of `!x` says what the other outcome says of `x`
        return re.sub(r"not-(?:true|false) _ (?:\((c\.if-not-[\w-]+\.(?:true|false))\)|(c\.if-not-[\w-]+\.(?:true|false)))", lambda m: m[1] or m[2], body)

    stem = names.data.get("stem", "")
    seen = set()
    for it in parsed:
        if it[0] == "left":
            answers.append("\n".join(it[2] + ["-- left:"] + ["-- " + l for l in it[3].split("\n")]))
            problems.append("chunk")
        elif it[0] == "inv":
            _, what, loop, comment, name, definition = it
            found = None
            for old, (new, live, changed) in names.loops.items():
                if plain(old) == plain(loop):
                    found = (new, live, changed)
            if not found:
                problems.append("no loop " + loop)
                invs.append("-- left: " + definition.replace("\n", "\n-- "))
                continue
            new, live, changed = found
            d = definition[len(name):]
            params, eq, body = d.partition("=")
            params = params.split()
            table = {}
            want = [("l.initial." + v if changed and changed[k] else "l." + v) for k, v in enumerate(live)] + ["l." + v for k, v in enumerate(live) if changed and changed[k]]
            if len(params) != len(want):
                problems.append(f"loop {loop}: {len(params)} parameters and not {len(want)}")
            for p, w in zip(params, want):
                if p != "_":
                    table[p] = w
            body = re.sub(r"(?<![^\s({,;])(" + ID + ")", lambda m: table.get(m[1], m[1]), body)
            label = f"{what}-{new}"
            invs.append("\n".join(comment + [f"abbrev pub {stem}{label} : goal.{stem}{label}", f"{stem}{label} l ={body}"]))
        elif it[0] == "need":
            _, need, comment, name, unfold, definition = it
            k = names.need(need)
            if k is None:
                if definition.split("=", 1)[-1].strip() != "search rules":
                    problems.append("no need " + need)
                    answers.append("\n".join(comment + ["-- left: " + need] + ["-- " + l for l in definition.split("\n")]))
                continue
            new = names.needs[k][1]
            place = names.asked[k][0]
            if place not in names.places:
                place = names.place_of(place)
            d = definition[len(name):]
            m = re.match(r"\s+((?:" + ID + r"\s+)*?)=", d)
            if not m or re.search(r"(?m)^" + re.escape(name) + r" ", d):
                problems.append("clauses of " + need)
                answers.append("\n".join(comment + ["-- left: " + new] + ["-- " + l for l in definition.split("\n")]))
                continue
            params = m[1].split()
            body = d[m.end():]
            if body.strip() == "search rules" and not unfold:
                continue
            root = params[0] if params else "c"
            if re.search(r"κs", body):
                problems.append("κs")
            body = paths(body, root, place, new)
            # the further parameters, but for what a call asks
            more = [p for p in params[1:] if p not in ("κs", "_")]
            seen.add(new)
            answers.append("\n".join(comment + [f"pub {stem}{new} : goal.{stem}{new}"] + unfold + [f"{stem}{new} {' '.join(['c'] + more)} ={body}"]))
        else:
            _, name, comment, sig, unfold, definition, ls = it
            if name in helpers:
                var, place, old = helpers[name]
                if place is None:
                    problems.append(f"helper {name}: no place {old}")
                    answers.append("\n".join(comment + ["-- left:"] + ["-- " + l for l in ls]))
                    continue
                by = names.places[place]["by"]
                # the type of its place, with the loops that it names
                sig = re.sub(r"tie\." + re.escape(old) + r"((?: (?:" + "|".join(map(re.escape, list(loopnames) or ["\0"])) + r"))*)", "goal." + by, sig)
                s2 = paths(sig, var, place, None)
                d2 = paths(definition, var, place, None)
                if "tie." in s2 + d2 or "TODO" in d2 + s2 or "\0" in d2:
                    problems.append("helper " + name)
                answers.append("\n".join(comment + [s2] + unfold + [d2]))
            else:
                if "tie." in sig + definition:
                    problems.append("helper " + name)
                    answers.append("\n".join(comment + ["-- left:"] + ["-- " + l for l in ls]))
                else:
                    answers.append("\n".join(comment + ls))
    module = f"Rattle.{crate}.proofs.{fn}"
    answers = [re.sub(r"\((" + ID + r") : goal\.([A-Z]" + ID + r")\)", r"(\1 : \2)", a) for a in answers]
    text = "\n".join(answers)
    named = sorted(set(re.findall(r"\(goal\.at\." + ID + r" c\)\.([A-Z]" + ID + ")", text)) | {v["by"] for v in names.places.values() if re.search(r" : " + re.escape(v["by"]) + r"\)", text) or re.search(r": " + re.escape(v["by"]) + r" →", text)})
    kept = [u for u in uses if not u.startswith(f"use {module}.Statement") and not u.startswith(f"use {module}.Tie")]

    def imports(text, more):
        words = set(re.findall(ID, re.sub(r"(?m)--.*$", "", text)))
        out = []
        for u in kept:
            m = re.match(r"use (\S+)\.\{(.*)\}", u)
            if not m:
                out.append(u)
                continue
            items = [x.strip() for x in m[2].split(",") if x.strip()]
            used = []
            for x in items:
                local = x.split(" as ")[-1].strip()
                parts = [y for y in local.split("◌") if y]
                if "◌" in local:
                    if all(any(p == w or (p in w and not re.match(r"\w", p)) for w in words) for p in parts):
                        used.append(x)
                elif local in words or any(w.startswith(local + ".") for w in words):
                    used.append(x)
            if used:
                out.append(f"use {m[1]}.{{{', '.join(used)}}}")
        return out + more

    result = {}
    if invs:
        t = "\n\n".join(invs)
        result["Invariants"] = "\n".join(header + imports(t, [f"use {module}.Given as goal"])) + "\n\n" + t + "\n"
    if answers:
        t = "\n\n".join(answers)
        real = re.sub(r"(?m)^--.*$", "", t).strip()
        if real or problems:
            goals = [f"use {module}.Goals as goal"] + ([f"use {module}.Goals.{{{', '.join(named)}}}"] if named else [])
            result["Answers"] = "\n".join(header + imports(t, goals)) + "\n\n" + t + "\n"
    return result, problems


def main(argv):
    folder, crates = argv[0], argv[1:]
    total = 0
    for crate in crates:
        path = os.path.join(folder, "crates", crate, "names.json")
        if not os.path.exists(path):
            print(f"{crate}: no names")
            continue
        data = json.load(open(path))
        base = os.path.join(TOP, "crates", crate, "proofs")
        for at, dirs, files in sorted(os.walk(base)):
            if "Proof.antt" not in files:
                continue
            fn = os.path.relpath(at, base).replace("/", ".")
            key = f"Rattle-{crate}-proofs.{fn}.Lts"
            if key not in data:
                print(f"{crate}/{fn}: no names {[k for k in data if fn in k][:3]}")
                continue
            names = Names(data[key])
            with open(os.path.join(at, "Proof.antt")) as f:
                text = f.read()
            result, problems = convert(text, names, crate, fn)
            for k, t in result.items():
                with open(os.path.join(at, k + ".antt"), "w") as f:
                    f.write(t)
            os.remove(os.path.join(at, "Proof.antt"))
            total += 1
            if problems:
                print(f"{crate}/{fn}: {'; '.join(dict.fromkeys(problems))}")
    print(total, "proofs turned")


if __name__ == "__main__":
    main(sys.argv[1:])
