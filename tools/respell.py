#!/usr/bin/env python3
"""Respells the repository's own names: words in snake case (definitions, lemmas, fields, constructors, binders), types and modules in camel case.
usage: tools/respell.py [--list]   at the top of the repository
Functions of src/, exported names and strings keep their names: only .antt files, ghost imports, clauses and the text of must-fail edits hold these names.
"""
import collections, glob, os, re, sys
ID = r"[^\W\d][\w'′-]*"
TOKEN = re.compile(r"(?<![\w'′-])" + ID)
DECL = re.compile(r"^\s*(?:(?:abbrev|unfoldable|pub|lemma|ruleset)\s+)*(" + ID + r")\s*(?::(?:\s|$)|\{|\()")
BINDERS = [re.compile(r"\blet\s+(" + ID + r")\s*[:=]"), re.compile(r"λ\s+((?:" + ID + r"\s+)*" + ID + r")\s*\."), re.compile(r"[({]\s*((?:" + ID + r"\s+)*" + ID + r")\s*:\s"),
           re.compile(r"λ\s*\(((?:" + ID + r"\s+)*" + ID + r")\s*:")]
# names whose plain respelling another name has
OTHER = {"turnsAlone": "turns_alone_of", "startUp": "begun_start_up"}
# lemmas that a definition's new name would hide
FIRST = {"at_rest": "at_rest_lem", "key_left": "key_left_lem", "no_write": "no_write_lem", "quad_at": "quad_at_lem", "waits_in": "waits_in_lem", "record_of": "bytes_of_record"}
KEEP_DASH = ("length-", "get_or-")

def snake(name):
    for head in KEEP_DASH:
        if name.startswith(head): return head + snake(name[len(head):])
    out = name.replace("-", "_")
    out = re.sub(r"(?<=[a-z0-9])([A-Z])", lambda m: "_" + m.group(1).lower(), out)
    return out

def old(name):
    return name[0].islower() and ("-" in name or re.search(r"[a-z0-9][A-Z]", name))

def files():
    for root in sorted(glob.glob("crates/*")):
        for part in ("specs", "proofs", "src", "must-fail"):
            for folder, dirs, names in os.walk(os.path.join(root, part)):
                for n in sorted(names):
                    if n.endswith((".antt", ".rt", ".edit")): yield os.path.join(folder, n)

def main():
    text = {f: open(f, encoding="utf-8").read() for f in files()}
    tokens = collections.defaultdict(set)
    for f, t in text.items():
        for m in TOKEN.finditer(t): tokens[m.group(0)].add(f)
    found = set()
    for f, t in text.items():
        if not f.endswith(".antt"): continue
        for line in t.split("\n"):
            line = line.split("-- ")[0]
            m = DECL.match(line)
            words = [m.group(1)] if m else []
            for b in BINDERS:
                for m in b.finditer(line): words += m.group(1).split()
            m = re.match(r"^\s*(" + ID + r")((?:\s+" + ID + r")+)\s*=", line)
            if m: words += m.group(2).split()
            found.update(w for w in words if old(w))
    # what the library calls so keeps its spelling
    own = "|".join(sorted(os.path.basename(c) for c in glob.glob("crates/*")))
    for t in text.values():
        for m in re.finditer(r"^(?:pub )?(?:ghost )?use ([^\s{;]+)\.(?:\{([^}]*)\}|([^\s.{;]+))", t, re.M):
            if not re.match(r"Rattle\.(?:" + own + r")\.", m.group(1) + "."): found.difference_update(re.split(r"[,\s]+", m.group(2) or m.group(3)))
    names, said = {}, []
    camels = {snake(n) for n in found if "-" not in n}
    for n in sorted(found):
        new = snake(n)
        if "-" in n and new in camels: new += "_lem"
        elif "-" in n and new != n and new in tokens: new = n
        if new != n and new in tokens: said.append(f"{n} -> {new} stands in {sorted(tokens[new])[:3]}")
        names[n] = OTHER.get(n, new)
    back = collections.defaultdict(list)
    for o, n in names.items(): back[n].append(o)
    for n, os_ in sorted(back.items()):
        if len(os_) > 1: said.append(f"together: {os_} -> {n}")
    return text, names, said

if __name__ == "__main__":
    text, names, said = main()
    if "--list" in sys.argv:
        for o, n in sorted(names.items()): print(o, n)
        print(*said, sep="\n")
        raise SystemExit
    lemma_file = re.compile(r"crates/\w+/proofs/\w+\.antt$")
    for f, t in text.items():
        new = t
        if lemma_file.match(f): new = TOKEN.sub(lambda m: FIRST.get(m.group(0), m.group(0)), new)
        new = TOKEN.sub(lambda m: names.get(m.group(0), m.group(0)), new)
        if f.endswith(".antt"): new = re.sub(r"^(\s*--.*)$", lambda m: re.sub(r"\bstart_ups?\b", lambda w: w.group(0).replace("_", "-"), m.group(1)), new, flags=re.M)
        if new != t: open(f, "w", encoding="utf-8").write(new)
    print(*said, sep="\n")
