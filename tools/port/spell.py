#!/usr/bin/env python3
"""Gives crates and the repository's own specification and lemma names their names of today.

    python3 tools/port/spell.py            run once at the top of the repository, right after port.py; prints what it renamed
    python3 tools/port/spell.py --dry      prints only

Crates: `unicode` is `utf`, `unicode_vectors` is `utf_vectors`, since the kit has a library named unicode. libc and os,
which no crate may use, go from crates.txt. Names: a name that begins with a small letter and has humps, as `stepAt` or `In⇒storedList`, becomes `step_at`,
`In⇒stored_list`: in specs/, proofs/, the clauses and `ghost use` lines of src/, and in the edits. Names that come from
the toolchain's libraries, Rust names, texts in quotes and comments' examples of table text stay. Where two names would
fall together it says so and changes nothing. Where a new name meets one that is there already in the same file (mostly
the Rust function that the definition is for), it says so. docs/CHANGES.md, which is history, keeps its names.
"""
import re, sys, pathlib, collections

# pieces of a name: what dashes and signs join
TOKEN = re.compile(r"[A-Za-z_][\w]*", re.UNICODE)
QUOTED = re.compile(r'"(?:[^"\\\n]|\\.)*"')


def snake(word):
    if not re.match(r"[a-z]", word) or not re.search(r"[A-Z]", word):
        return word
    out = re.sub(r"(?<=[a-z0-9₀-₉])([A-Z])", lambda m: "_" + m.group(1).lower(), word)
    return re.sub(r"([A-Z])", lambda m: m.group(1).lower(), out)


def declarations(text):
    """The names that a file declares, fields of records and constructors left out."""
    within = None  # the indent of the record or data type that we are in
    for line in text.splitlines():
        indent = len(line) - len(line.lstrip())
        if within is not None and line.strip() and indent <= within:
            within = None
        match = re.match(r"\s*(?:(?:pub|abbrev|unfoldable) )*([a-z]\w*) :", line)
        if re.match(r"\s*(?:pub )?(?:record|data) ", line):
            within = indent
        elif match and within is None:
            yield match.group(1)


CRATES = {"unicode": "utf", "unicode_vectors": "utf_vectors"}


def crates(top):
    """Renames the crates: folders, crates.txt, paths in sources, edits and pages."""
    for old, new in CRATES.items():
        if (top / "crates" / old).exists():
            (top / "crates" / old).rename(top / "crates" / new)
        if (top / "edits" / old).exists():
            (top / "edits" / old).rename(top / "edits" / new)
    lines = []
    for line in (top / "crates.txt").read_text().splitlines():
        if line and not line.startswith("#"):
            name, _, uses = line.partition(":")
            uses = [CRATES.get(use, use) for use in uses.split() if use not in ("libc", "os")]
            line = " ".join([CRATES.get(name, name) + ":"] + uses)
        lines.append(line)
    (top / "crates.txt").write_text("\n".join(lines) + "\n")
    for path in top.rglob("*"):
        if path.is_file() and path.suffix in (".rt", ".antt", ".edit", ".md") and ".git" not in path.parts \
                and path.name != "CHANGES.md":
            text = old_text = path.read_text()
            for old, new in CRATES.items():
                text = re.sub(r"Rattle([.·])%s\b" % old, r"Rattle\1%s" % new, text)
                text = re.sub(r"(?<![\w])%s::" % old, new + "::", text)
                text = re.sub(r"crates/%s\b" % old, "crates/" + new, text)
                if path.suffix == ".md":
                    text = re.sub(r"`%s`" % old, "`%s`" % new, text)
            if text != old_text:
                path.write_text(text)


def main():
    dry = "--dry" in sys.argv
    top = pathlib.Path(".")
    if not dry:
        crates(top)
    own = [line.split(":")[0].split()[0] for line in (top / "crates.txt").read_text().splitlines()
           if line.strip() and not line.startswith("#")]
    files = [p for p in top.rglob("*") if p.suffix in (".antt", ".rt", ".edit") and "out" not in p.parts and p.is_file()]
    texts = {p: p.read_text() for p in files}

    # names that libraries of the toolchain give stay as they are
    library = set()
    pattern = re.compile(r"use\s+(?!Rattle\.(?:%s)\.)[\w.·-]+\.\{([^}]*)\}" % "|".join(map(re.escape, own)))
    for text in (text for path, text in texts.items() if path.suffix != ".edit"):
        for names in pattern.findall(text):
            library.update(TOKEN.findall(names))

    words = collections.Counter()
    for path, text in texts.items():
        for word in TOKEN.findall(QUOTED.sub('""', text)):
            if snake(word) != word and word not in library:
                words[word] += 1
    renamed = {word: snake(word) for word in words}

    # two old names for one new one
    back = collections.defaultdict(list)
    for word, new in renamed.items():
        back[new].append(word)
    clashes = {new: old for new, old in back.items() if len(old) > 1}
    # a new name that stands already in a file that has the old one
    meets = collections.defaultdict(set)
    for path, text in texts.items():
        there = set(TOKEN.findall(QUOTED.sub('""', text)))
        for word in there & set(renamed):
            if renamed[word] in there:
                meets[word].add(str(path))
    for new, old in sorted(clashes.items()):
        print("fall together:", new, "<-", " ".join(old))
    for word, paths in sorted(meets.items()):
        print("met:", word, "->", renamed[word], len(paths), "files:", " ".join(sorted(paths)[:4]))
    print(len(renamed), "names,", sum(words.values()), "places;", len(clashes), "fall together,", len(meets), "met")
    # a lemma that has the new name of a definition already gives way: it is `.._lem` now, where it stands and where it
    # is imported
    declared = collections.defaultdict(set)
    for path, text in texts.items():
        if path.suffix == ".antt":
            for word in declarations(text):
                declared[word].add(path)
    lemmas = {renamed[word]: {path for path in declared[renamed[word]] if "proofs" in path.parts}
              for word in renamed if declared[word] and declared[renamed[word]]}
    lemmas = {word: paths for word, paths in lemmas.items() if paths}
    for word, paths in sorted(lemmas.items()):
        print("gives way:", word, "->", word + "_lem", "in", " ".join(map(str, sorted(paths))))
    if dry:
        return
    if clashes:
        sys.exit("nothing changed")
    for word, paths in lemmas.items():
        for path in paths:
            module = ".".join(part for part in path.with_suffix("").parts[2:])
            imported = re.compile(r"\.%s\.\{[^}]*(?<![\w-])%s(?![\w-])" % (re.escape(module), word))
            for other, text in texts.items():
                if other == path or (other.suffix == ".antt" and imported.search(text)):
                    texts[other] = re.sub(r"(?<![\w.'-])%s(?![\w'-])" % word, word + "_lem", text)
                    other.write_text(texts[other])
    for path in top.rglob("*.md"):  # pages name them too
        if path.is_file() and "out" not in path.parts and path.name not in ("PORT.md", "CHANGES.md"):
            texts[path] = path.read_text()
    for path, text in texts.items():
        kept = []

        def hold(match):
            kept.append(match.group(0))
            return "\x00%d\x00" % (len(kept) - 1)

        held = QUOTED.sub(hold, text)
        held = TOKEN.sub(lambda m: renamed.get(m.group(0), m.group(0)), held)
        new = re.sub("\x00(\\d+)\x00", lambda m: kept[int(m.group(1))], held)
        if new != text:
            path.write_text(new)


main()
