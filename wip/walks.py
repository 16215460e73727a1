#!/usr/bin/env python3
"""Turns walks of the older Rattle (proofs/F/Proof.antt) into today's Invariants.antt and Answers.antt, for the patches that wait here.

usage: wip/walks.py names OLD CRATE..             what a walk's goals and steps are called today, into OLD/names
       wip/walks.py inv OLD CRATE [FUNCTION..]    writes Invariants.antt
       wip/walks.py ans OLD CRATE LOG [FUNCTION..]    writes Answers.antt for the goals that a check, whose output is LOG, leaves open
       wip/walks.py cycle OLD CRATE CYCLE NEW [LOG]   the same of a cycle of calls, whose folders were and are proofs/CYCLE and proofs/NEW

Run it in the root of a checkout. OLD is a checkout of the text with its walks, which the kit's port.py and tools/respell have turned. `names`
reads the code of this checkout, over the sources of the crates below. A file that stands is left as it is. What it can't turn it says.
"""
import glob
import importlib.machinery
import importlib.util
import json
import os
import re
import subprocess
import sys

TOKEN = re.compile(r"[^\s(){},;λ]+")
NOT_ON = re.compile(r"(?<![\w'-])(?:not-true|not-false|not_on|is-on)\s+(?:(?:\([^()]*\)|[^\s()]+)\s+)?(c\.if-[^\s(),;]+)")


def plain(name):
    """A name with one dash for any join of its words."""
    return re.sub("-+", "-", name.replace("_", "-"))


def read(path):
    with open(path, encoding="utf-8") as f:
        return f.read()


class Function:
    """The names of a function's goals and steps: in its walk, and today."""

    def __init__(self, names):
        self.names = names
        self.parent, self.step, self.callee, self.arms = {}, {}, {}, {}
        for place, arms in zip(names["places"], names["arms"]):
            name, parent, step, callee, _ = place
            self.parent[name], self.step[name], self.callee[name], self.arms[name] = parent, step, callee, arms

    def above(self, place):
        """The place and all before it."""
        while place is not None:
            yield place
            place = self.parent[place]

    def arm(self, place, word, rest):
        """Today's path of a field of an arm of a match, if the word is one."""
        for at in self.above(place):
            step, _, fields = self.arms[at] or ("", 0, [])
            for new, old, inner in fields:
                if plain(old) == plain(word) and (not inner or rest[: len(inner)] == inner):
                    return [step, new, *rest[len(inner) :]]
        return None

    def path(self, place, words):
        """A path below the record of a place: the place that it names, or today's path below `c`."""
        words = list(words)
        while words and words[0] == "before":
            place = self.parent[place] or place
            words.pop(0)
        if not words:
            return place, None
        word, rest = words[0], words[1:]
        if word in ("args", "ranges", "requires", "type_inv", "auto", "lifetimes", "told"):
            return None, [word, *[it.replace("-", "_") for it in rest[:1]], *rest[1:]]
        arm = self.arm(place, word, rest)
        if arm:
            return None, arm
        found = [at for at in [*self.above(place), *self.step] if plain(self.step[at][0]) == plain(word)]
        if not found:
            return None, None
        at = found[0]
        if rest[:1] == ["new"] and len(rest) > 1 and rest[1].isdigit() and self.callee[at] in self.names["params"]:
            changed = self.names["params"][self.callee[at]][int(rest[1])]
            rest = ["new", changed, *rest[3 if rest[2:3] == ["0"] else 2 :]]
        return None, [self.step[at][1], *rest]

    def body(self, text, place, said, var="c"):
        """A proof with its paths below `var` as they are today. What only named a place is gone."""
        places = {var: place}
        while True:
            for m in re.finditer(r"let (\S+) = (\S+) in\s*", text):
                first, *rest = m.group(2).split(".")
                at = self.path(places[first], rest)[0] if first in places and m.group(1) not in places else None
                if at:
                    places[m.group(1)] = at
                    text = text[: m.start()] + text[m.end() :]
                    break
            else:
                break

        def turned(m):
            first, *rest = m.group(0).split(".")
            if first not in places or not rest:
                return m.group(0)
            _, words = self.path(places[first], rest)
            if words is None:
                said.append(f"no name today for {m.group(0)} at {places[first]}")
                return m.group(0)
            return ".".join([var, *words])

        return NOT_ON.sub(r"\1", TOKEN.sub(turned, text))

    def goal(self, wanted):
        """The number of a goal of the walk."""
        wanted = re.sub("^overflow-", "", plain(wanted))
        for i, (old, _) in enumerate(self.names["needs"]):
            if re.sub("^overflow-", "", plain(old)) == wanted:
                return i
        return None

    def loop(self, name, params, body, said):
        """A loop's name today, and its invariant or measure with the record `l` for the parameters."""
        for (names, live), changed in zip(self.names["loops"], self.names["changed"]):
            if plain(names[0]) == plain(name):
                fields = [f"l.initial.{it}" if c else f"l.{it}" for it, c in zip(live, changed)]
                fields += [f"l.{it}" for it, c in zip(live, changed) if c]
                if len(params) != len(fields):
                    said.append(f"loop {name}: {params} for {fields}")
                by = dict(zip(params, fields))
                by.pop("_", None)
                return names[1], TOKEN.sub(lambda m: ".".join([by.get(w, w) if i == 0 else w for i, w in enumerate(m.group(0).split("."))]), body)
        said.append(f"no loop {name}")
        return None, body


class Walk:
    """The text of a Proof.antt: its first comment, its imports, its declarations."""

    def __init__(self, path):
        blocks = []
        for block in re.split(r"\n\s*\n", read(path).strip("\n")):
            if blocks and block[0] in " \t":
                blocks[-1] += "\n\n" + block
            else:
                blocks.append(block)
        self.head, self.uses, self.declared = [], [], []
        for block in blocks:
            lines = block.split("\n")
            if any(line.startswith("use ") for line in lines):
                for line in lines:
                    if line.startswith("--"):
                        self.head.append(line)
                    elif line.startswith("use "):
                        self.uses.append(line)
                    else:
                        self.uses[-1] += "\n" + line
            else:
                self.declare(lines)

    def declare(self, lines):
        comment = []
        while lines and lines[0].startswith("--"):
            comment.append(lines.pop(0))
        m = lines and re.match(r"(abbrev |unfoldable )?(?:pub )?(\S+)\s*:\s*(.*)$", lines[0])
        if not m:
            return
        lines.pop(0)
        stated = m.group(3)
        while lines and lines[0].startswith(" "):
            stated += "\n" + lines.pop(0)
        opened = []
        while lines and (lines[0].startswith("unfolding ") or (opened and lines[0].startswith(" "))):
            opened.append(lines.pop(0))
        self.declared.append((comment, m.group(1) or "", m.group(2), stated, opened, "\n".join(lines)))

    def imports(self):
        dropped = r"proofs\.\S*(\.Statement|\.Tie|\.Lts|\.Reads|\.Kinds|\.Code)|kinds|^use contract\.|\.\+"
        return [it for it in self.uses if not re.search(dropped, it)]

    def helpers(self, text):
        """The declarations that a text uses and that are no goal, by name."""
        own = {}
        for comment, kind, name, stated, opened, clauses in self.declared:
            if not re.search(r"tie\.|-lts\.|statement|Measures|: In |→ In |Claims", stated):
                own[name] = "\n".join([*comment, f"{kind}pub {name} : {stated}", *opened, clauses])
        used, new = {}, [text]
        while new:
            near, new = new, []
            for name, its in own.items():
                if name not in used and any(re.search(r"(?<![\w'-])" + re.escape(name) + r"(?![\w'-])", it) for it in near):
                    used[name] = its
                    new.append(its)
        return {name: its for name, its in own.items() if name in used}


def clause(text):
    """A clause's parameters and its body."""
    m = re.match(r"\S+\s*(.*?)\s*=\s*(.*)$", text, re.S)
    return m.group(1).split(), m.group(2)


def fields_of_source(crate, text):
    """Fields that are names of the source, as the source spells them."""
    names = {it for f in glob.glob(f"crates/{crate}/src/*.rt") for it in re.findall(r"\b[a-z]\w*_\w*\b", read(f))}
    spelt = lambda m: "." + (m.group(1).replace("-", "_") if m.group(1).replace("-", "_") in names else m.group(1))
    return re.sub(r"(?<!c)\.([a-z]\w*(?:-\w+)+)(?![\w-])", spelt, text.replace(".type-inv", ".type_inv"))


def write(crate, folder, name, parts):
    path = f"crates/{crate}/proofs/{folder}/{name}"
    if os.path.exists(path):
        print(f"{path} stands")
        return
    os.makedirs(os.path.dirname(path), exist_ok=True)
    with open(path, "w", encoding="utf-8") as f:
        f.write(fields_of_source(crate, "\n".join(parts) + "\n"))


def invariants(walk, functions):
    """The declarations of Invariants.antt, and what could not be turned. functions: each by its name, '' where it is no cycle."""
    made, said = [], []
    for comment, _, name, stated, _, clauses in walk.declared:
        m = re.match(r"(?:tie|(\S+)-lts)\.(invariant|decreases)-(\S+)$", stated)
        params, body = clause(clauses)
        if m:
            of = next((it for it in functions if plain(it) == plain(m.group(1) or "")), None)
            loop, body = functions[of].loop(m.group(3), params, body, said)
            label = f"{m.group(2)}-{of + '-' if of else ''}{loop}"
        elif name.startswith("μ-") and "Measures" in stated:
            of = next(it for it in functions if plain(it) == plain(name[2:]))
            own = functions[of].names.get("parameters", [])
            body = re.sub(r"(?<![\w.])" + params[-1] + r"\.((?:1\.)*0)(?!\w)", lambda m: "l." + own[m.group(1).count(".")], body)
            label = f"decreases-{of}"
        else:
            continue
        made.append("\n".join([*comment, f"abbrev pub {label} : goal.{label}", f"{label} l = {body}"]))
    return made, said


def answers(walk, functions, goals):
    made, said, done = [], [], set()
    for comment, _, _, stated, opened, clauses in walk.declared:
        m = re.search(r"(?:tie|(\S+)-lts)\.Need-(\S+)", stated)
        of = m and next((it for it in functions if plain(it) == plain(m.group(1) or "")), None)
        number = None if of is None else functions[of].goal(m.group(2))
        if number is None:
            continue
        function = functions[of]
        label = (of + "-" if of else "") + function.names["needs"][number][1]
        if label not in goals:
            continue
        done.add(label)
        params, body = clause(clauses)
        body = function.body(body, function.names["asked_at"][number][0], said)
        if of:
            body = body.replace("c.requires.0", "c.decreases").replace("c.requires.1", "c.requires")
        end = "\n    " if clauses.split("\n")[0].rstrip().endswith("=") else " "
        params = " ".join(it for it in params if it != "κs")
        made.append("\n".join([*comment, f"pub {label} : goal.{label}", *opened, f"{label} {params} ={end}{body.lstrip()}"]))
    return made, said + [f"no answer in the walk for {it}" for it in goals if it not in done]


def open_goals(log):
    found = {}
    line = r"^fn \S+: no proof: expected answers in \./proofs/(\S+)/Answers\.antt; `search` did not prove ((?:`[^`]+`(?:, )?)+)"
    for m in re.finditer(line, read(log), re.M):
        found.setdefault(m.group(1), []).extend(re.findall(r"`([^`]+)`", m.group(2)))
    return found


def turn(old, crate, folder, new, functions, goals):
    """Writes Invariants.antt, or where goals are given Answers.antt."""
    walk = Walk(f"{old}/crates/{crate}/proofs/{folder}/Proof.antt")
    module = f"Rattle.{crate}.proofs.{new.replace('/', '.')}"
    laws, said = invariants(walk, functions)
    shared = walk.helpers("\n".join(laws)) if laws else {}
    if goals is None:
        if laws:
            head = [*walk.head, *walk.imports(), f"use {module}.Given as goal", ""]
            write(crate, new, "Invariants.antt", [*head, "\n\n".join([*shared.values(), *laws])])
    else:
        made, said = answers(walk, functions, goals)
        own = {name: it for name, it in walk.helpers("\n".join(made)).items() if name not in shared}
        head = [*walk.head, *walk.imports()]
        if shared:
            head.append(f"use {module}.Invariants.{{{', '.join(shared)}}}")
        if made:
            write(crate, new, "Answers.antt", [*head, f"use {module}.Goals as goal", "", "\n\n".join([*own.values(), *made])])
    for it in said:
        print(f"{new}: {it}")


def names_of(old, crates):
    """Has the kit say the names of each crate's goals and steps, over the sources of the crates below."""
    guide = subprocess.run(["rt", "doc"], capture_output=True, text=True, check=True).stdout.strip()
    loader = importlib.machinery.SourceFileLoader("rtlib", os.path.join(os.path.dirname(guide), "bin", "rtlib.py"))
    rtlib = importlib.util.module_from_spec(importlib.util.spec_from_loader("rtlib", loader))
    sys.modules["rtlib"] = rtlib
    loader.exec_module(rtlib)
    root = os.getcwd()
    for crate in crates:
        to = os.path.abspath(f"{old}/names/{crate}")
        os.makedirs(to, exist_ok=True)
        words = rtlib.Crate(f"{root}/crates/{crate}", root, {}).words(["--jobs", "1", "--generated", to, "--old-names"], as_source=True)
        ran = subprocess.run(["rattle", "check", *words], cwd=f"crates/{crate}", capture_output=True, text=True)
        print(crate, ran.stdout.strip().splitlines()[-1:] or ran.stderr[-300:])


def main(words):
    if len(words) < 3:
        print(__doc__)
        return 2
    verb, old, *words = words
    if verb == "names":
        names_of(old, words)
        return 0
    crate, *words = words
    names = json.loads(read(f"{old}/names/{crate}/names.json"))
    module = lambda folder: f"Rattle-{crate}-proofs.{folder.replace('/', '.')}.Lts"
    if verb == "cycle":
        folder, new, *log = words
        begin = module(new) + "-"
        functions = {it[len(begin) :]: Function(names[it]) for it in names if it.startswith(begin)}
        source = "".join(read(f) for f in glob.glob(f"crates/{crate}/src/*.rt"))
        for name, function in functions.items():
            m = re.search(r"fn " + name + r"\s*(?:<[^>]*>)?\(([^)]*)\)", source)
            function.names["parameters"] = re.findall(r"(\w+)\s*:", m.group(1))
        turn(old, crate, folder, new, functions, open_goals(log[0]).get(new, []) if log else None)
        return 0
    goals = open_goals(words.pop(0)) if verb == "ans" else None
    below = f"{old}/crates/{crate}/proofs"
    for path in sorted(glob.glob(f"{below}/**/Proof.antt", recursive=True)):
        folder = os.path.relpath(os.path.dirname(path), below)
        if "+" in folder or (words and folder not in words) or (goals is not None and folder not in goals):
            continue
        if module(folder) not in names:
            print(f"{folder}: the check names nothing of it")
            continue
        turn(old, crate, folder, folder, {"": Function(names[module(folder)])}, None if goals is None else goals[folder])
    return 0


raise SystemExit(main(sys.argv[1:]))
