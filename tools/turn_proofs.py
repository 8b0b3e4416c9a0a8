#!/usr/bin/env python3
"""Writes the names that today's Rattle gives to goals, places and steps into the proofs that walk a function's goals.

usage: turn_proofs.py NAMES CRATE

NAMES is the names.json that 'rt check --generated DIR --old-names' writes for the crate, and CRATE the crate's folder. It rewrites each
proofs/F/Proof.antt that gives `tie.spec` its answers, in place.

- The answers stand in the order of the goals, so the place of an answer says which goal it is for.
- A step is a field of every place behind it, so `c.before.before.f` is written `c.f`, and what only led from place to place is left out.
- A place that a lemma takes is written by as many `.before` as there are now, since an arm of a `match` is one place.

It prints the files whose answers are not as many as the goals, and the places that it could not follow.
"""

import json
import os
import re
import sys

WORD = r"[^\s(){}.;,@\"«»\[\]\\]+"
TOKEN = re.compile(r"--[^\n]*|\.(?=[^\s.])" + WORD + r"|\"[^\"]*\"|" + WORD + r"|\s+|.", re.S)


def alike(name):
    return re.sub("[-_«»]", "", name).lower()


def arguments(text):
    """The arguments of the application at the start of the text: each in brackets or one word."""
    found, i = [], 0
    while i < len(text):
        if text[i].isspace():
            i += 1
        elif text[i] == "(":
            depth, j = 0, i
            while True:
                depth += (text[j] == "(") - (text[j] == ")")
                j += 1
                if depth == 0:
                    break
            found.append(text[i:j])
            i = j
        elif text[i] == ")":
            break
        else:
            j = i
            while j < len(text) and not text[j].isspace() and text[j] not in "()":
                j += 1
            found.append(text[i:j])
            i = j
    return found


class Places:
    def __init__(self, names):
        self.new, self.parent, self.step, self.own, self.up, self.arm, self.callee = {}, {}, {}, {}, {}, {}, {}
        order = [p[0] for p in names["places"]]
        for i, (old, parent, (old_step, new_step), _, _) in enumerate(names["places"]):
            self.new[old] = names["places_by_name"][i]
            self.parent[old] = parent
            self.own[old] = old_step
            arm = names["arms"][i] if i < len(names["arms"]) else None
            self.arm[old] = arm
            self.step[old] = new_step if old_step else None
            self.callee[old] = names["places"][i][3]
            up, count = old, arm[1] if arm else 1
            for _ in range(count):
                up = self.parent.get(up)
            self.up[old] = up
        self.by_alike = {alike(o): o for o in order}
        self.by_new = {alike(n): o for o, n in self.new.items()}

        # an arm takes up the places before it
        self.into = {}
        for old in order:
            if self.arm[old] and self.arm[old][1] > 1:
                inner, count = old, self.arm[old][1]
                for _ in range(count - 1):
                    inner = self.parent[inner]
                    if self.into.get(inner) is None or self.arm[self.into[inner]][1] < count:
                        self.into[inner] = old

    def named(self, word):
        found = self.by_alike.get(alike(word)) or self.by_new.get(alike(word))
        return self.into.get(found, found)

    def chain(self, frm, to):
        """How many `.before` lead from one place to another now, or None."""
        n = 0
        while frm is not None and frm != to:
            frm = self.up[frm]
            n += 1
        return n if frm == to else None

    def field(self, place, field, rest):
        return self.exact(place, field, rest) or (self.exact(place, field[:-4], rest) if field[-4:] in ("-lem", "_lem") else None)

    def exact(self, place, field, rest):
        """The path of a step's field, seen from a place: the new path, and how many of the fields behind it are taken up in it."""
        # an arm at or above the place takes up the steps of the places in it
        p = place
        while p is not None:
            arm = self.arm[p]
            if arm:
                for new, old_step, path in sorted(arm[2], key=lambda e: -len(e[2])):
                    if alike(old_step) == alike(field) and rest[: len(path)] == path:
                        return [arm[0], new], len(path)
            p = self.up[p] if arm else self.parent[p]
        p = place
        while p is not None:
            if self.own[p] and alike(self.own[p]) == alike(field):
                return [self.step[p]], 0
            p = self.parent[p]
        return None


class Turner:
    def __init__(self, path, names):
        self.path = path
        self.names = names
        self.places = Places(names)
        self.notes = []
        self.text = re.sub(r"(?m)^(?!use ).*$", lambda m: re.sub(r"(?<=\.)«(\w+)»", r"\1", m.group(0)), open(path, encoding="utf-8").read())

    def goals(self):
        at = self.text.find("(tie.spec")
        given = arguments(self.text[at + len("(tie.spec") :])
        extra = 2 * len(self.names["loops"])
        answers, needs = given[extra:], self.names["needs"]
        self.goal_of, self.place_of = {}, {}
        if len(answers) != len(needs):
            self.notes.append(f"{len(answers)} answers, {len(needs)} goals: {' '.join(n for _, n in needs)}")
        asked = self.names["asked_at"]
        self.answers = answers
        olds = {alike(o): i for i, (o, n) in enumerate(needs)}
        news = {alike(n): i for i, (o, n) in enumerate(needs)}
        same = len(answers) == len(needs)
        heads = dict(re.findall(r"(?m)^(" + WORD + r") : tie\.Need-(" + WORD + ")", self.text))
        for name, word in heads.items():
            i = None
            if same and name in answers:
                i = answers.index(name)
            else:
                for w in (word, re.sub(r"^(overflow|nonzero|bounds)-", "", word)):
                    i = olds.get(alike(w), news.get(alike(w))) if i is None else i
            if i is None:
                self.notes.append(f"no goal for {name} : {word}")
                continue
            self.goal_of[name] = needs[i][1]
            self.place_of[name] = asked[i][0] if i < len(asked) else None

    def type_name(self, word):
        """The new name of `tie.WORD`."""
        for kind in ("invariant-", "decreases-"):
            if word.startswith(kind):
                for (old, new), _ in self.names["loops"]:
                    if alike(word[len(kind) :]) == alike(old):
                        return kind + new
        place = self.places.named(word)
        return self.places.new[place] if place else word

    def run(self):
        self.goals()
        blocks = re.split(r"(?m)^(?=\S)", self.text)
        out = []
        self.maps = {}
        # definitions that lead from place to place
        for b in blocks:
            m = re.match(r"abbrev (" + WORD + r") : tie\.(" + WORD + r")((?: " + WORD + r")*) → tie\.(" + WORD + r")((?: " + WORD + r")*)\n", b)
            if m and self.places.named(m.group(2)) and self.places.named(m.group(4)):
                self.maps[m.group(1)] = self.places.named(m.group(4))
        for b in blocks:
            new = self.block(b)
            if b and not new:
                while out and out[-1].startswith("--"):
                    out.pop()
            out.append(new)
        text = self.listed("".join(out))
        text = re.sub(r"\n{3,}", "\n\n", text)
        function = os.path.basename(os.path.dirname(self.path))
        for name in re.findall(r"(?m)^pub (" + WORD + r") : \{M : Type 1\}", text):
            if alike(name) == alike(function + "_spec"):
                text = re.sub(r"(?<![\w-])" + re.escape(name) + r"(?![\w-])", function + "_spec", text)
        return text

    def listed(self, text):
        """The answers in the order of the goals, each at its place; one that is not there is left to the search."""
        at = text.find("(tie.spec")
        if at < 0:
            return text
        start = at + len("(tie.spec")
        end, depth = at, 0
        while True:
            depth += (text[end] == "(") - (text[end] == ")")
            end += 1
            if depth == 0:
                break
        given = arguments(text[start : end - 1])
        extra = 2 * len(self.names["loops"])
        front, answers, needs = given[:extra], given[extra:], self.names["needs"]
        asked = self.names["asked_at"]
        if len(answers) == len(needs):
            new = []
            for i, a in enumerate(answers):
                m = re.match(r"\(λ (" + WORD + r")", a)
                if m and "search rules)" not in a and i < len(asked):
                    self.roots = {m.group(1): asked[i][0]}
                    a, _ = self.parse(TOKEN.findall(a), 0, {m.group(1): (m.group(1), asked[i][0])})
                new.append(a)
        else:
            by_goal = {g: n for n, g in self.goal_of.items()}
            new = [by_goal.get(g) or ("(λ c κs. search rules)" if g.endswith("-requires") else "(λ c. search rules)") for _, g in needs]
            lost = [a for a in answers if a.startswith("(") and "search rules)" not in a]
            if lost:
                self.notes.append("left out: " + " ".join(lost))
        pieces = front + new
        shape = "\n    " if len(pieces) > 3 else " "
        return text[:start] + shape + shape.join(pieces) + text[end - 1 :]

    def block(self, b):
        head = re.match(r"(?:abbrev |pub )*(" + WORD + r")", b)
        name = head.group(1) if head else None
        if name in self.maps:
            return ""
        env = {}
        if name in self.place_of:
            # the first parameter of the answer is the place of the goal
            m = re.match(re.escape(name) + r" (" + WORD + ")", b)
            if m and m.group(1) != ":":
                env[m.group(1)] = (m.group(1), self.place_of[name])
        sig = getattr(self, "signatures", {})
        if name and re.match(r"(?:abbrev |pub )*" + re.escape(name) + r" :", b):
            # a lemma's signature: its places, by position
            kinds = self.kinds(b.split(" :", 1)[1])
            self.signatures = {**sig, name: kinds}
            for m in re.finditer(r"\((" + WORD + r") : tie\.(" + WORD + ")", b):
                p = self.places.named(m.group(2))
                if p:
                    env[m.group(1)] = (m.group(1), p)
        elif name in sig and name not in self.place_of:
            rest = b[head.end() :].split(" =", 1)[0].split()
            for w, p in zip(rest, sig[name]):
                if p:
                    env[w] = (w, p)
        b = re.sub(
            r"^(" + WORD + r") : tie\.Need-" + WORD,
            lambda m: f"{m.group(1)} : tie.Need-{self.goal_of[m.group(1)]}" if m.group(1) in self.goal_of else m.group(0),
            b,
        )
        return self.terms(b, env)

    def kinds(self, text):
        """The place that each explicit parameter of a signature is, or None."""
        tokens, i, kinds = TOKEN.findall(re.split(r"(?m)^\S", text)[0]), 0, []
        while i < len(tokens):
            t = tokens[i]
            if t.isspace() or t == "→":
                i += 1
            elif t == "let":
                break
            elif t in "({":
                depth, j = 0, i
                while True:
                    depth += (tokens[j] in ("(", "{")) - (tokens[j] in (")", "}"))
                    j += 1
                    if depth == 0 or j == len(tokens):
                        break
                inner = "".join(tokens[i + 1 : j - 1])
                m = re.match(r"([^:]+) : (.*)", inner, re.S)
                if m and t == "(":
                    place = re.match(r"tie\.(" + WORD + ")", m.group(2).strip())
                    kinds += [self.places.named(place.group(1)) if place else None] * len(m.group(1).split())
                elif not m:
                    j = next((k for k in range(j, len(tokens)) if tokens[k] == "→"), len(tokens))
                    kinds.append(None)
                i = j
            else:
                j = next((k for k in range(i, len(tokens)) if tokens[k] == "→"), len(tokens))
                place = re.match(r"tie\.(" + WORD + ")", "".join(tokens[i:j]).strip())
                kinds.append(self.places.named(place.group(1)) if place else None)
                i = j
        return kinds

    def terms(self, text, env):
        tokens = TOKEN.findall(text)
        out, _ = self.parse(tokens, 0, dict(env))
        return out

    def parse(self, tokens, i, env):
        """Turns the tokens up to the closing bracket; returns the text and where it ends."""
        out = []
        while i < len(tokens):
            t = tokens[i]
            if t == ")":
                return "".join(out), i
            if t == "let":
                # let d = PLACE in
                j = i + 1
                while tokens[j].isspace():
                    j += 1
                var = tokens[j]
                k = j + 1
                while k < len(tokens) and tokens[k].isspace():
                    k += 1
                if k < len(tokens) and tokens[k] == "=":
                    end = k
                    depth = 0
                    while end < len(tokens) and not (tokens[end] == "in" and depth == 0):
                        depth += (tokens[end] in "([{") - (tokens[end] in ")]}") if len(tokens[end]) == 1 else 0
                        end += 1
                    place = self.place(tokens[k + 1 : end], env)
                    if place:
                        env[var] = place
                        i = end + 1
                        while i < len(tokens) and tokens[i].isspace():
                            i += 1
                        continue
                    env.pop(var, None)
                    called = self.step_of(tokens[k + 1 : end], env)
                    if called:
                        env["call " + var] = called
                    else:
                        env.pop("call " + var, None)
                out.append(t)
                i += 1
                continue
            if re.fullmatch(WORD, t) and t in env and not (out and out[-1].endswith(".")):
                text, i = self.projected(env[t], tokens, i + 1)
                out.append(text)
                continue
            if re.fullmatch(WORD, t) and "call " + t in env:
                fields, j = [], i + 1
                while j < len(tokens) and tokens[j].startswith(".") and len(tokens[j]) > 1:
                    fields.append(tokens[j][1:])
                    j += 1
                fields = self.last_value(env["call " + t], fields)
                out.append(".".join([t] + fields))
                i = j
                continue
            if t == "(":
                close = self.closing(tokens, i)
                place = self.place(tokens[i : close + 1], env)
                if place:
                    text, i = self.projected(place, tokens, close + 1)
                    out.append(text)
                    continue
                inner, _ = self.parse(tokens[: close + 1], i + 1, dict(env))
                out.append("(" + inner + ")")
                i = close + 1
                continue
            if t in self.maps:
                # a function from place to place, applied
                j = i + 1
                while j < len(tokens) and tokens[j].isspace():
                    j += 1
                arg, end = self.atom(tokens, j)
                place = self.place(arg, env)
                if place:
                    place = (place[0], self.maps[t])
                    text, i = self.projected(place, tokens, end)
                    out.append(text)
                    continue
            if t == "tie" and i + 1 < len(tokens) and tokens[i + 1].startswith("."):
                word = tokens[i + 1][1:]
                out.append("tie." + (word if word.startswith("Need-") else self.type_name(word)))
                i += 2
                continue
            out.append(t)
            i += 1
        return "".join(out), i

    def closing(self, tokens, i):
        depth = 0
        for j in range(i, len(tokens)):
            depth += (tokens[j] == "(") - (tokens[j] == ")")
            if depth == 0:
                return j
        return len(tokens) - 1

    def atom(self, tokens, i):
        """An atom with its projections."""
        if i >= len(tokens):
            return [], i
        end = self.closing(tokens, i) + 1 if tokens[i] == "(" else i + 1
        while end < len(tokens) and tokens[end].startswith(".") and len(tokens[end]) > 1:
            end += 1
        return tokens[i:end], end

    def place(self, tokens, env):
        """The place that a term is, as (variable, old place)."""
        tokens = [t for t in tokens if not t.isspace() and not t.startswith("--")]
        if not tokens:
            return None
        if tokens[0] in self.maps:
            arg, end = self.atom(tokens, 1)
            if end != len(tokens):
                return None
            found = self.place(arg, env)
            return (found[0], self.maps[tokens[0]]) if found else None
        arg, end = self.atom(tokens, 0)
        if end != len(tokens):
            return None
        if arg[0] == "(":
            close = self.closing(arg, 0)
            found, rest = self.place(arg[1:close], env), arg[close + 1 :]
        else:
            found, rest = env.get(arg[0]), arg[1:]
        for field in rest:
            if not found or field != ".before":
                return None
            parent = self.places.parent.get(found[1])
            found = (found[0], parent) if parent else None
        return found

    def step_of(self, tokens, env):
        """The function that is called in the step that a term is, or None."""
        tokens = [t for t in tokens if not t.isspace()]
        if len(tokens) < 2 or not tokens[-1].startswith("."):
            return None
        place = self.place(tokens[:-1], env)
        return self.callee(place[1], tokens[-1][1:]) if place else None

    def projected(self, place, tokens, i):
        """A place with the fields that follow."""
        var, at = place
        fields = []
        while i < len(tokens) and tokens[i].startswith(".") and len(tokens[i]) > 1:
            fields.append(tokens[i][1:])
            i += 1
        while fields and fields[0] == "before":
            parent = self.places.parent.get(at)
            if not parent:
                break
            at = parent
            fields.pop(0)
        if not fields:
            return self.way(var, at), i
        fields[0] = {"fits": "ranges", "pre": "requires"}.get(fields[0], fields[0])
        first, rest = fields[0], fields[1:]
        found = self.places.field(at, first, rest) or (self.places.field(self.roots[var], first, rest) if var in self.roots else None)
        if found:
            path, used = found
            rest = rest[used:]
            if len(path) == 1 or used or True:
                fields = path + rest
        if found and len(path) == 1:
            fields = path + self.last_value(self.callee(at, first), fields[1:])
        words = {"inv": "invariant", "taken": "true", "left": "false", "last": "new"}
        if found and len(fields) > 1:
            k = len(path)
            if k < len(fields) and fields[k] in words and not (fields[k] == "left" and path[0].startswith("loop") and not path[0].endswith("-test")):
                fields[k] = words[fields[k]]
        return ".".join([var] + fields), i

    def callee(self, at, field):
        p = at
        while p is not None:
            if self.places.own[p] and alike(self.places.own[p]) == alike(field):
                return self.places.callee.get(p)
            p = self.places.parent[p]
        return None

    def last_value(self, callee, fields):
        """A last value goes by the parameter's name, where it went by its place."""
        params = self.names["params"].get(callee)
        if not params or not fields or fields[0] not in ("new", "last"):
            return fields
        k = 1
        while k < len(fields) and fields[k] == "1":
            k += 1
        if k < len(fields) and fields[k] == "0" and k - 1 < len(params):
            return ["new", params[k - 1], *fields[k + 1 :]]
        return fields

    def way(self, var, at):
        root = self.roots.get(var)
        at = at if self.places.chain(root, at) is not None else self.places.into.get(at, at)
        n = self.places.chain(root, at) if root else None
        if n is None:
            self.notes.append(f"no way from {root} to {at}")
            n = 0
        return var + ".before" * n

    roots = {}


def source_names(crate):
    """The names of the sources with an underscore, by their letters alone."""
    found = {}
    top = os.path.dirname(os.path.abspath(crate))
    for folder, _, files in os.walk(top):
        if "/out" in folder or not folder.endswith("/src"):
            continue
        for f in files:
            for w in re.findall(r"[a-z]\w*_\w*", open(os.path.join(folder, f), encoding="utf-8").read()):
                found.setdefault(alike(w), w)
    return found


def denied(text):
    """A test of `!x` says what the other outcome of a test of `x` says, so what turned one into the other is left out."""
    tokens, out, i = TOKEN.findall(text), [], 0

    def atom(i):
        while i < len(tokens) and tokens[i].isspace():
            i += 1
        start, depth = i, 0
        while i < len(tokens):
            depth += (tokens[i] == "(") - (tokens[i] == ")")
            i += 1
            if depth == 0 and not (i < len(tokens) and tokens[i].startswith(".") and len(tokens[i]) > 1):
                break
        return start, i

    uses = False
    while i < len(tokens):
        line = "".join(out).rsplit("\n", 1)[-1]
        if re.fullmatch(r"not[-_](true|false)", tokens[i]) and not line.startswith("use "):
            _, end = atom(i + 1)
            start, last = atom(end)
            out.append(denied("".join(tokens[start:last])))
            i = last
            uses = True
            continue
        out.append(tokens[i])
        i += 1
    return "".join(out)


def spelled(text, turner, sources):
    """A field that a source names keeps its spelling."""
    steps = {s for s in turner.places.step.values() if s} | {new for (_, new), _ in turner.names["loops"]}

    def one(m):
        word = m.group(1)
        if "-" not in word or word in steps or word.startswith(("in-", "if-")):
            return m.group(0)
        return "." + sources.get(alike(word), word)

    return re.sub(r"(?<=[\w)])\.(" + WORD + ")", one, text)


def main(argv):
    sources = source_names(argv[1])
    with open(argv[0], encoding="utf-8") as f:
        all_names = json.load(f)
    for key, names in sorted(all_names.items()):
        m = re.match(r"Rattle-\w+-proofs\.(.+)\.Lts$", key)
        if not m:
            continue
        path = os.path.join(argv[1], "proofs", *m.group(1).split("."), "Proof.antt")
        if not os.path.exists(path) or "(tie.spec" not in open(path, encoding="utf-8").read():
            continue
        turner = Turner(path, names)
        # each variable stands at one place at first: that of the goal or of the lemma
        whole = turner.block

        def block(b, turner=turner, whole=whole):
            return whole(b)

        terms = turner.terms

        def rooted(text, env, turner=turner, terms=terms):
            turner.roots = {v: p for v, (r, p) in env.items()}
            return terms(text, env)

        turner.terms = rooted
        text = turner.run()
        text = denied(text)
        text = spelled(text, turner, sources)
        text = re.sub(r"\.inv(?![-_\w])", ".invariant", text)
        with open(path, "w", encoding="utf-8") as f:
            f.write(text)
        for note in turner.notes:
            print(f"{path}: {note}")
    return 0


if __name__ == "__main__":
    raise SystemExit(main(sys.argv[1:]))
