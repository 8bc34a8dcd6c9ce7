#!/usr/bin/env python3
"""Brings the repository's own definitions and lemmas to the spelling of today's Rattle: tools/respell.py [ROOT].

Run once, after port.py. Functions, lemmas, fields and constructors of antt go to snake case, types keep their camel
case. Each file of specs/, proofs/ and src/ is turned, and the edits, README.md and docs/ with it. A name that a file
imports from a library of the kit is left alone in that file. Functions, types and strings of Rattle keep their names.
It prints each new name that a file had already: these are looked at by hand.
"""
import pathlib
import re
import sys

ROOT = pathlib.Path(sys.argv[1] if len(sys.argv) > 1 else ".").resolve()
TOKEN = re.compile(r"[^\s(){}\[\];,.«»|`\"]+")
HEAD = re.compile(r"^ *(?:(?:unfoldable|abbrev|pub|data|record|module) +)*([^\s(){}:;]+)((?: +\([^:]*?:.*?\)| +\{[^:]*?:.*?\})*) +:(?: (.*))?$")
USE = re.compile(r"^\s*(?:ghost )?(?:pub )?use ([^\s{}]+?)\.\{([^}]*)\}", re.M)
KEYWORDS = {"let", "in", "use", "elim", "where", "module"}
# Lemmas that had in snake case what a definition of their crate has from now on in place of its camel case, with the files that say them.
LEMMAS = {
    "goes_on": ("auditing/proofs/AuditorLaws.antt",),
    "line_taken": ("auditing/proofs/OwnSlot.antt", "auditing/proofs/OwnLogsAccepted.antt"),
    "first_next": ("job/proofs/Next.antt", "job/proofs/RankSearch.antt"),
    "is_digit": ("text/proofs/TextRead.antt",),
    "in_order": ("ranges/proofs/RangesPass.antt",),
}


def snake(name):
    name = name.replace("-", "_")
    name = re.sub(r"(?<=[a-z0-9])(?=[A-Z])", "_", name)
    return name.lower() if not re.match(r"[A-Z]$", name) else name


def camel(name):
    return "".join(part[:1].upper() + part[1:] for part in re.split(r"[-_]", name))


def lemma_files():
    """The files whose definitions are ours by name: specs/ and the files of proofs/ that no function owns."""
    for path in sorted(ROOT.glob("crates/*/specs/*.antt")) + sorted(ROOT.glob("crates/*/proofs/*.antt")):
        yield path


def declared(text):
    """The names that a file defines, each with whether it is a type."""
    lines = text.splitlines()
    for at, line in enumerate(lines):
        if line.lstrip().startswith("--") or re.match(r"\s*(?:pub )?(?:use|mod) ", line):
            continue
        head = HEAD.match(line)
        if not head:
            continue
        name = head.group(1)
        if name in KEYWORDS or name.startswith(("λ", "→", "(", "?", "=", "≡")):
            continue
        # The rest of the signature: up to the line that begins with the name again or is not indented.
        signature = head.group(3) or ""
        for more in lines[at + 1:]:
            if not more.strip() or not more.startswith(" "):
                break
            signature += " " + more.strip()
        yield name, bool(re.search(r"(?:^|→ )Type 0$", signature.split(" -- ")[0].strip())) or bool(re.match(r"(?:pub )?(?:data|record) ", line))


def renamings():
    """Every name that changes, with its new spelling. A lemma that would have its function's name gets `_lem`."""
    found, all_names, in_specs = {}, set(), set()
    for path in lemma_files():
        for name, is_type in declared(path.read_text()):
            all_names.add(name)
            if path.parent.name == "specs":
                in_specs.add(name)
            if is_type and (name[0].islower() or "-" in name):
                found.setdefault(name, camel(name))
            elif not is_type and re.search(r"-|^[a-z0-9].*[A-Z]", name) and not re.search(r"[≡≤<+*=◌∷→×λ∙]", name):
                new = snake(name)
                if new != name:
                    found.setdefault(name, new)
    taken = all_names | {new for old, new in found.items() if "-" not in old}
    for old, new in found.items():
        if "-" in old and new in taken and old not in in_specs or old == "bool-byte":
            found[old] = new + "_lem"
    return found


def ours(module):
    return module.startswith("Rattle.") and module.split(".")[1] in CRATES


def turned(text, names, path):
    """The text with each of our names in the new spelling, and the new names that it had before."""
    kept = set()
    for module, items in USE.findall(text):
        if not ours(module):
            kept |= {word.strip().split(" as ")[-1] for word in items.split(",")}
    had = set(TOKEN.findall(text))
    clash = set()
    for name, files in LEMMAS.items():
        if str(path).endswith(files):
            text = re.sub(r"(?<![\w.-])" + name + r"(?![\w-])", name + "_lem", text)
    had = set(TOKEN.findall(text))

    def put(found):
        word = found.group(0)
        new = names.get(word)
        if new is None or word in kept:
            return word
        if new in had:
            clash.add((word, new))
        return new

    return TOKEN.sub(put, text), clash


CRATES = {path.name for path in ROOT.glob("crates/*")}


def main():
    names = renamings()
    by_new = {}
    for old, new in names.items():
        by_new.setdefault(new, set()).add(old)
    for new, olds in sorted(by_new.items()):
        if len(olds) > 1:
            print("fall together:", new, sorted(olds))
    clashes = []
    paths = [*lemma_files(), *sorted(ROOT.glob("crates/*/proofs/**/*.antt")), *sorted(ROOT.glob("crates/*/src/**/*.rt"))]
    paths += sorted(ROOT.glob("crates/*/must-fail/*.edit")) + sorted(ROOT.glob("crates/*/mutants/*.edit"))
    paths += [ROOT / "README.md", *sorted((ROOT / "docs").glob("*.md")), *sorted((ROOT / "docs/changes").glob("*.md"))]
    for path in dict.fromkeys(paths):
        text = path.read_text()
        new, clash = turned(text, names, path)
        # The proof of a Rattle function `f` is `f_spec`.
        if path.name == "Proof.antt":
            spec = re.search(r"^pub (\S+-spec)\b", new, re.M)
            if spec:
                new = re.sub(r"(?<![\w-])" + re.escape(spec.group(1)) + r"(?![\w-])", path.parent.name + "_spec", new)
        clashes += [(str(path.relative_to(ROOT)), *one) for one in sorted(clash)]
        if new != text:
            path.write_text(new)
    print(len(names), "names")
    for clash in clashes:
        print("had already:", *clash)


main()
