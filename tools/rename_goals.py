#!/usr/bin/env python3
"""Turns the proofs of a crate's functions to the names that today's Rattle gives goals, places and steps: tools/rename_goals.py CRATE NAMES [FUNCTION..].

NAMES is the folder that `rt check --generated NAMES --old-names`, run in the crate, wrote. Run once a crate, after respell.py. Each Proof.antt
is rewritten: a goal, a place or a step that has another name now gets it, a step is named at the place where it is used in place of by a chain
of `.before`, and the answers stand in the order of today's goals; one that the old proof did not have is left to `search`. It prints each word
that it could not place.
"""
import json
import pathlib
import re
import sys

crate, names = sys.argv[1:3]
only = sys.argv[3:]
ROOT = pathlib.Path(__file__).resolve().parent.parent
FOLDER = ROOT / "crates" / crate / "proofs"
GENERATED = json.loads((pathlib.Path(names) / "names.json").read_text())
TIE = re.compile(r"tie\.((?:Need-)?[^\s(){}\[\];,.]+)")
WORD = r"[^\s(){}\[\];,.|:=λ→×]+"


def plain(name):
    return re.sub(r"_lem$", "", name).replace("-", "_")


def parts(text):
    """The arguments of a call, each as it is written, without the spaces around."""
    found, depth, begin = [], 0, None
    for at, sign in enumerate(text):
        if begin is None and not sign.isspace():
            begin = at
        depth += (sign in "([{") - (sign in ")]}")
        if begin is not None and depth == 0 and (at + 1 == len(text) or text[at + 1].isspace()):
            found.append(text[begin:at + 1])
            begin = None
    return found


class Names:
    """What a function's goals, places and steps are called now, by what they were called."""

    def __init__(self, of):
        self.missing = set()
        self.needs, self.asked = {}, {}
        for (old, new), (_, place) in zip(of["needs"], of["asked_at"]):
            for name in (plain(old), plain(new)):
                self.needs.setdefault(name, new)
            self.asked[new] = place
        self.places, self.parent = {}, {}
        by_old = {}
        for (old, above, *_), new in zip(of["places"], of["places_by_name"]):
            self.places.setdefault(plain(old), new)
            by_old.setdefault(old, new)
            self.parent[new] = by_old.get(above)
        # The parts of an arm are one step now, after what comes before the first of them.
        self.arms, first, last = {}, {}, {}
        for arm, new in zip(of["arms"], of["places_by_name"]):
            if arm:
                first.setdefault(arm[0], new)
                last[arm[0]] = new
                self.parent[new] = self.parent[first[arm[0]]]
                for field, step, path in arm[2]:
                    if path:
                        self.arms[plain(step), ".".join(path)] = f".{arm[0]}.{field}"
        for arm, new in zip(of["arms"], of["places_by_name"]):
            for old, place in self.places.items():
                if arm and place == new:
                    self.places[old] = last[arm[0]]
            for place, above in self.parent.items():
                if arm and above == new:
                    self.parent[place] = last[arm[0]]
        self.steps, self.fields = {}, {}
        for _, _, (old, new), _, renamed in of["places"]:
            if old:
                self.steps.setdefault(plain(old), new)
            # What a test says as it stands is `true-raw` and `false-raw` where today's `true` and `false` say it plainly.
            for was, now in renamed:
                self.fields[new, was] = now
        for old, new in of["args"]:
            (step, *was), (_, *now) = (re.findall(r"[^\s.]+", path) for path in (old, new))
            if was:
                self.fields[step, was[0]] = now[0]
            else:
                self.steps.setdefault(plain(step), re.findall(r"[^\s.]+", new)[0])
        self.steps |= {"well_formed": "well_formed", "type_inv": "type_inv", "pre": "requires", "good": "well_formed"}
        self.params = {}
        for _, _, (old, new), callee, _ in of["places"]:
            if callee in of["params"]:
                self.params[new] = of["params"][callee]
        self.loops = {plain(old): new for (old, new), _ in of["loops"]}

    def need(self, word):
        tried = [word, re.sub("^overflow-", "", word), re.sub("^slice-bounds-", "part-", word)]
        for name in tried:
            if plain(name) in self.needs:
                return self.needs[plain(name)]
        self.missing.add("Need-" + word)
        return word

    def place(self, word):
        if plain(word) not in self.places:
            self.missing.add(word)
        return self.places.get(plain(word), word)

    def tie(self, found):
        word = found.group(1)
        if word in ("close", "spec"):
            return found.group(0)
        if word.startswith("Need-"):
            return "tie.Need-" + self.need(word[5:])
        for kind in ("invariant-", "decreases-"):
            if word.startswith(kind):
                return "tie." + kind + self.loops.get(plain(word[len(kind):]), word[len(kind):])
        return "tie." + self.place(word)

    def path(self, start, end):
        """The `.before`s from a place to one that it comes after."""
        text = ""
        while start is not None and start != end:
            text += ".before"
            start = self.parent.get(start)
        if start is None:
            self.missing.add(f"no way to {end}")
        return text

    def stepped(self, line):
        return re.sub(r"(?<![.\w'-])((?:[\w'₀-₉-]+|\)))((?:\.[^\s(){}\[\];,.|]+)+)", self.chain, line)

    def chain(self, found):
        """A path from a variable: the first step of it that is not `before`, and the field of that step, have their names of today."""
        words = found.group(2).split(".")[1:]
        at = 0
        while at + 1 < len(words) and words[at] == "before":
            at += 1
        for length in range(len(words) - at - 1, 0, -1):
            arm = self.arms.get((plain(words[at]), ".".join(words[at + 1:at + 1 + length])))
            if arm:
                return found.group(1) + "".join("." + word for word in words[:at]) + arm + "".join("." + word for word in words[at + 1 + length:])
        step = self.steps.get(plain(words[at])) or self.steps.get(plain(words[at][:1].lower() + words[at][1:]), words[at])
        # A variable's own step is never named alone: that is a field of some record.
        if at + 1 < len(words) or not re.search(r"-\d+$", step):
            words[at] = step
        if at + 1 < len(words):
            if words[at].startswith(("if-", "loop-")):
                words[at + 1] = {"taken": "true", "left": "false", "inv": "invariant", "branch": "branch-raw"}.get(words[at + 1], words[at + 1])
            # What a call left in its parameter is named by it now, and was by its place.
            if words[at + 1] == "new" and words[at] in self.params:
                place = re.match(r"((?:1\.)*)0(?:\.|$)", ".".join(words[at + 2:]))
                if place:
                    ones = place.group(1).count("1")
                    words[at + 2:at + 3 + ones] = [self.params[words[at]][ones]]
            words[at + 1] = self.fields.get((words[at], words[at + 1]), words[at + 1])
        return found.group(1) + "".join("." + word for word in words)


def definitions(head):
    """The head of a file as pieces of text: those of a definition with its name, the others with none."""
    pieces, name = [], None
    for line in head.split("\n"):
        begins = re.match(r"(?:abbrev |pub )*(\S+)(?: :|:$)", line)
        if line and not line[0].isspace():
            if line.startswith(("--", "use ", "module")):
                name = None
                pieces.append([None, line])
                continue
            if begins and not line.startswith("unfolding"):
                name = begins.group(1)
                pieces.append([name, line])
                continue
        if name is None or not pieces:
            pieces.append([None, line])
        else:
            pieces[-1][1] += "\n" + line
    return pieces


def turned(text, of):
    names = Names(of)
    begin = text.index("(tie.spec") + 1
    depth, end = 1, begin
    while depth:
        depth += {"(": 1, ")": -1}.get(text[end], 0)
        end += 1
    answers = parts(text[begin:end - 1])[1:]
    head, tail = text[:begin], text[end - 1:]
    pieces = definitions(head)
    helpers, roots = {}, {}
    for name, piece in pieces:
        if name is None:
            continue
        signature = re.split(r"\n(?=unfolding|" + re.escape(name) + r"\b)", piece)[0]
        clause = re.search(r"^" + re.escape(name) + r"(?: ([^=]*?))? =", piece[len(signature):], re.M)
        variables = (clause.group(1) or "").split() if clause else []
        goal = re.search(r":\s+tie\.Need-(" + WORD + ")", signature)
        if goal:
            roots[name] = (variables[0] if variables else None, names.asked.get(names.need(goal.group(1))))
            continue
        bound = re.search(r"\((\S+) : tie\.(" + WORD + ")", signature)
        found = re.findall(r"tie\.(" + WORD + ")", signature)
        found = [word for word in found if plain(word) in names.places]
        if found:
            place = names.place(bound.group(2) if bound else found[0])
            back = names.place(found[1]) if len(found) > 1 and not bound else None
            roots[name] = (bound.group(1) if bound else variables[0] if variables else None, place)
            helpers[name] = (place, back)
    done = []
    for name, piece in pieces:
        if name in roots and roots[name][0]:
            piece = body_turned(piece, name, *roots[name], helpers, names)
        done.append("\n".join(line if line.startswith(("use ", "--")) else TIE.sub(names.tie, names.stepped(line)) for line in piece.split("\n")))
    head = "\n".join(done)
    extra = 2 * len(of["loops"])
    if len(answers) == extra + len(of["needs"]):
        body = answers
    else:
        # By the names of the goals where an answer has a name of its own, and else by `search`.
        given = {}
        for found in re.finditer(r"^(?:pub )?(\S+) :\s+tie\.Need-(\S+)", head, re.M):
            given[found.group(2)] = found.group(1)
        body = answers[:extra] + [given.get(new, "(λ c. search rules)") for _, new in of["needs"]]
    for index, (_, new) in enumerate(of["needs"]):
        if re.match(r"\(λ c\b", body[extra + index]):
            body[extra + index] = names.stepped(body_turned(body[extra + index], "", "c", names.asked[new], helpers, names))
        elif body[extra + index] in helpers and helpers[body[extra + index]][0] != names.asked[new]:
            helper = body[extra + index]
            body[extra + index] = f"(λ c. {helper} c{names.path(names.asked[new], helpers[helper][0])})"
    text = head + "tie.spec\n    " + "\n    ".join(body) + tail
    return text, names.missing


def body_turned(piece, name, root, place, helpers, names):
    """A definition's text with each step named from the variable that stands for the place."""
    if name in helpers and helpers[name][1]:
        signature = piece[:piece.rindex("\n" + name)]
        return f"{signature}\n{name} {root} = {root}{names.path(place, helpers[name][1])}"
    known = {root}
    known_words = lambda: "|".join(sorted(map(re.escape, known), key=len, reverse=True))
    back = "|".join(re.escape(helper) for helper, (_, end) in helpers.items() if end) or "(?!)"
    changed = True
    while changed:
        changed = False
        at = r"(?<![\w.'-])(?:" + known_words() + r")(?![\w'-])"
        piece, count = re.subn(r"\((?:" + back + ") " + at + r"(?:\.before)*\)", root, piece)
        changed = count > 0
        alias = re.compile(r"let (\S+) = (?:(?:" + back + r") )?(?:" + known_words() + r")(?:\.before)*\s+in\s*")
        found = alias.search(piece)
        if found:
            known.add(found.group(1))
            piece = piece[:found.start()] + piece[found.end():]
            changed = True
    at = r"(?<![\w.'-])(?:" + known_words() + r")(?![\w'-])"
    # A helper takes the place that its signature says.
    for helper, (wanted, _) in helpers.items():
        if helper != name:
            piece = re.sub(r"(?<![\w.'-])" + re.escape(helper) + r" " + at + r"((?:\.before)*)(?!\.)", lambda found: f"{helper} {root}{names.path(place, wanted).replace('.before', '.BEFORE')}", piece)
    piece = re.sub(at + r"(?:\.before)+(?=\.)", root, piece)
    piece = re.sub(at, root, piece)
    return piece.replace(".BEFORE", ".before")


def main():
    for path in sorted(FOLDER.rglob("Proof.antt")):
        key = f"Rattle-{crate}-proofs." + ".".join(path.parent.relative_to(FOLDER).parts) + ".Lts"
        if only and path.parent.name not in only:
            continue
        if key not in GENERATED:
            print(path.relative_to(ROOT), "no names")
            continue
        text, missing = turned(path.read_text(), GENERATED[key])
        path.write_text(text)
        if missing:
            print(path.relative_to(ROOT), *sorted(missing))


main()
