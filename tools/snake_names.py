#!/usr/bin/env python3
"""Spells the repository's own definitions and lemmas in snake case, as `image_of` for `imageOf` and `sweeping_none` for `sweeping-none`.

usage: tools/snake_names.py [--list]        at the top of the repository, once, after port.py

Own names are those that a file of specs/ or proofs/ declares at a type (definitions, lemmas, fields, constructors) and that begin with a
small letter. A name turns as a whole word, in .antt files, in .rt files and in edits; strings stay, and so does a name in a file that
imports it from a library that is not the repository's. Where a definition and a lemma would fall together, the lemma has dashes.
"""
import os
import re
import sys

WORD = re.compile(r'[^\s(){}\[\].;:,@"«»⌜⌝]+')
DECLARED = re.compile(r"^\s*(?:(?:pub|abbrev|unfoldable|pattern)\s+)*([^\s(){}\[\].;:,@\"«»⌜⌝]+)(?:\s*\{[^{}]*\})*\s+:\s")
USE = re.compile(r"^\s*(?:pub |ghost )?use (\S+?)(?:\.\{([^}]*)\})?;?\s*$", re.M)
# own lemmas that would be spelled as a word of the library that stands beside them
LIBRARY = {"bit_and", "put_mid"}
# fields that are spelled as a definition, in files where it is not
FIELDS = {"no_output", "same_word", "in_cycle"}
# constructors that are declared several to a line, and names that are only bound
BOUND = {"handOver", "dropReg", "isDue", "anyPhase", "noCycle", "inCycle", "levelAt", "dueBy", "byHand", "byInput", "byPool", "byOutput", "byCard", "byDirty"}
STRING = re.compile(r'"(?:[^"\\\n]|\\.)*"')


def snake(name):
    return re.sub(r"(?<=[a-z0-9'])[A-Z]", lambda m: "_" + m[0].lower(), name).replace("-", "_")


def files(*ends):
    for folder, dirs, names in os.walk("crates"):
        dirs[:] = sorted(d for d in dirs if d != "out")
        yield from (os.path.join(folder, n) for n in sorted(names) if n.endswith(ends))


def read(path):
    with open(path, encoding="utf-8") as f:
        return f.read()


def uncommented(text):
    return re.sub(r"(?m)^\s*--.*$", "", text)


def foreign(text, own_crates):
    """The names that the text imports from elsewhere."""
    out = set()
    for path, items in USE.findall(text):
        steps = path.replace("·", ".").split(".")
        if not (steps[0] == "Rattle" and len(steps) > 1 and steps[1] in own_crates):
            out.update(WORD.findall(items or ""))
    return out


def own(text, own_crates):
    """The names that the text declares, or imports from the repository's crates."""
    out = {m[1] for m in map(DECLARED.match, uncommented(text).splitlines()) if m}
    for path, items in USE.findall(text):
        steps = path.replace("·", ".").split(".")
        if steps[0] == "Rattle" and len(steps) > 1 and steps[1] in own_crates:
            out.update(WORD.findall(items or ""))
    return out


def main(argv):
    own_crates = set(os.listdir("crates"))
    texts = {p: read(p) for p in files(".antt", ".rt", ".edit")}
    for folder in ("tests/edits",):
        texts.update({os.path.join(folder, n): read(os.path.join(folder, n)) for n in sorted(os.listdir(folder)) if n.endswith(".edit")})
    declared = set()
    for path, text in texts.items():
        if path.endswith(".antt") and not path.endswith(("/Proof.antt", "/Answers.antt", "/Invariants.antt")):
            for line in uncommented(text).splitlines():
                m = DECLARED.match(line)
                if m and m[1][0].islower():
                    declared.add(m[1])
    turned = {n: snake(n) for n in declared | BOUND if snake(n) != n}
    # Of names that fall together the definition takes the underscores, and a lemma or a field keeps or gets back its dashes.
    plain = [new for new in turned.values()]
    dashed = {o for o, n in turned.items() if "-" in o and n not in FIELDS and (n in declared or plain.count(n) > 1 or n in LIBRARY)}
    back = {n: n.replace("_", "-") for o, n in turned.items() if "-" not in o and n in declared and n not in FIELDS and n not in dashed}
    for o in dashed:
        del turned[o]
    if "--list" in argv:
        print("\n".join(f"{o}\t{n}" for o, n in sorted({**turned, **back}.items())))
        print("dashes stay: " + " ".join(sorted(dashed)))
        return 0
    changed = 0
    for path, text in texts.items():
        keep = foreign(text, own_crates)
        table = {o: n for o, n in turned.items() if o not in keep}
        if path.endswith(".antt"):
            here = own(text, own_crates)
            table.update({o: n for o, n in back.items() if o in here})
        word = lambda m: table.get(m[0], m[0])
        parts, at = [], 0
        for s in STRING.finditer(text):
            parts += [WORD.sub(word, text[at : s.start()]), s[0]]
            at = s.end()
        new = "".join(parts) + WORD.sub(word, text[at:])
        if new != text:
            changed += 1
            with open(path, "w", encoding="utf-8") as f:
                f.write(new)
    print(f"{len(turned)} names, {changed} files")
    return 0


if __name__ == "__main__":
    raise SystemExit(main(sys.argv[1:]))
