#!/usr/bin/env python3
"""Brings this repository's own definitions and lemmas to today's spelling, after the kit's port.py: words in snake case.

usage: python3 tools/respell.py [--list]   at the top of the repository, once, right after port.py

A name declared in a crate's specs/ or in a file of lemmas is respelled where it has a capital inside (bitsOf, bits_of) or a dash. A dash
stays where it joins the names of two functions or types, as in length-append; elsewhere it becomes an underscore. Places of names are
words of the .antt and .rt files of crates/, of the edits, and of the pages; no string, no name of src/ and no goal of a proof is one.
"""
import collections
import os
import re
import sys

WORD = re.compile(r"[^\s(){}\[\]<>;,.\"|⌜⌝`@!?&=:+*/\\λ→≡×∙∷≤≢−≥…]+")
DECLARED = re.compile(r"^\s*((?:(?:abbrev|unfoldable|pub|mutual)\s+)*)(record\s+|data\s+|ruleset\s+)?([^\s:(){}\[\],;.]+)\s+(?::|\()")
KEYWORDS = {"use", "mod", "module", "where", "let", "in", "elim", "unfolding", "--", "open", "rw", "simp", "omega"}
# the library's functions on lists and numbers, whose names a dash may join to ours
LIBRARY = {"length", "append", "take", "drop", "map", "set", "replicate", "bind"}
# a name that port.py garbled in a comment, and a lemma to which it gave the name of the function that it is about
GARBLED = {"enough_Turns": "enough_turns", "params_ok": "params_ok_lem"}
# a lemma that would get the name of the function that it is about, and a function that would get that of a field
LEMMAS = {"mix-ok": "mix_ok_lem", "coefs-used": "coefs_used_lem", "written-bits": "written_bits_lem", "bit-of": "bit_of_lem", "run-at": "run_at_lem", "afterRun": "step_after_run"}
# the names that port.py respelled itself, in crates/ alone: the pages have them still
PORTED = """
above-zero add-at add-r after-one after-run again-by ahead-more ahead-none all-any all-done all-hold all-map allBelow allOf and-parts
answerOf at-first at-mid at-next back-fits before-more bit-at bitOf bitsOf by-bytes by-sign byte-at bytes-bits bytes-whole bytesAt
bytesOf carried-on codeOf count-at count-kept cut-of depth-le digit-at digits-above digits-last digits-mod done-next each-two edge-at
end-fits end-kept enough-turns every-append every-map every-take field-at field-lt fieldAt fieldsOf fill-done first-done first-rest
follows-is follows-on from-one from-zero given-is goes-bind going-done going-end going-next going-start half-is half-le half-lt headBits
header-at header-refused high-cut high-small high-zero is-pos isZero kept-next kindOf laid-by laid-more laid-next laid-none laid-one
lane-inside laneOf lanes-at lanes-count last-more lastOr leading-two left-le leftOf length-digits length-front lengthOf low-value midOf
minus-is mostOf mul-low mul-most mul-next next-le next-one no-lt none-left of-values one-answer one-bit one-lane one-of ones-cut op-fits
order-le order-lt params-at params-ok paramsOf partial-lt passedBy place-same placeIn placeOf placed-row placesOf plain-of planOf
product-lt reaches-same reaches-then readOn reads-same rest-at rest-more rest-of room-of round-trip row-by row-low rows-cut rows-left
run-fits run-length run-long run-value runAt runM same-length set-append-right shift-back shifted-fits shl-whole sign-above sign-below
sign-zero signed-above signed-below signed-by signedOf so-far stored-row sub-read sum-fits sum-is tag-at times-more turn-at turn-one
turn-two turnOf turned-on turns-at two-lanes upTo value-of valueOf whole-length wide-fits with-first with-rest with-second writing-start
yes-le zero-bits
"""


def texts(root, ends):
    for top in ("crates", "edits", "docs", "."):
        for folder, dirs, files in os.walk(os.path.join(root, top)):
            dirs[:] = [d for d in sorted(dirs) if d not in ("out", ".git", "target") and (top != ".")]
            for f in sorted(files):
                if f.endswith(ends):
                    yield os.path.join(folder, f)


def is_lemma_file(path):
    """A file of specs/, or one right in proofs/: not the proof of one function."""
    parts = path.split(os.sep)
    return "specs" in parts or ("proofs" in parts and len(parts) - parts.index("proofs") == 2)


def snake(word):
    word = re.sub(r"([a-z])([0-9]+)$", r"\1\2", word)
    return re.sub(r"(?<=[a-z0-9])([A-Z])", lambda m: "_" + m.group(1).lower(), word)


def library_names(root):
    """The names that the repository imports from the kit's libraries: these are spelled as they are to be."""
    own = sorted(os.listdir(os.path.join(root, "crates")))
    names = set()
    for path in texts(root, (".antt", ".rt")):
        with open(path, encoding="utf-8") as f:
            for module, items in re.findall(r"^\s*(?:ghost )?(?:pub )?use ([\w.\u00b7-]+)\.\{([^}]*)\}", f.read(), re.M):
                if not any(module.startswith(f"Rattle.{c}.") for c in own):
                    names |= {i.split(" as ")[0].strip() for i in items.split(",")}
    return names


def declared(root):
    """The names that the lemma files declare, each with what it is: a lemma, or a function or a type."""
    kinds = collections.OrderedDict()
    theirs = library_names(root)
    for path in texts(root, ".antt"):
        if is_lemma_file(path):
            with open(path, encoding="utf-8") as f:
                for line in f:
                    m = DECLARED.match(line)
                    if m and m.group(3) not in KEYWORDS | theirs:
                        kinds.setdefault(m.group(3), set()).add("lemma" if not m.group(2) and "abbrev" not in m.group(1) and "unfoldable" not in m.group(1) else "function")
    return kinds


def respelled(kinds):
    functions = {snake(n) for n, k in kinds.items() if "function" in k} | LIBRARY
    new = collections.OrderedDict()
    for name in kinds:
        if name[0].isupper() and "-" not in name:
            continue
        parts = [snake(p) for p in name.split("-")]
        if not all(parts):
            continue
        out = parts[0]
        for before, after in zip(parts, parts[1:]):
            out += ("-" if before in functions and after in functions else "_") + after
        if out != name:
            new[name] = LEMMAS.get(name, out)
    return new


def main():
    root = os.getcwd()
    kinds = declared(root)
    new = respelled(kinds)
    for path in texts(root, (".antt", ".rt")):
        with open(path, encoding="utf-8") as f:
            words = collections.Counter(WORD.findall(f.read()))
        become = collections.defaultdict(set)
        for w in words:
            become[new.get(w, w)].add(w)
        for it, olds in become.items():
            if len(olds) > 1 and any("_" + w != it and w in new for w in olds):
                print(f"together in {os.path.relpath(path, root)}: {', '.join(sorted(olds))}")
    if "--list" in sys.argv:
        for old, it in new.items():
            print(f"{old} {it}")
        return
    new.update(GARBLED)
    pages = dict(new) | {n: snake(n.replace("-", "_")) for n in PORTED.split()}
    for path in texts(root, (".antt", ".rt", ".edit")):
        turn(path, lambda text: WORD.sub(lambda m: new.get(m.group(0), m.group(0)), text))
    for path in texts(root, ".md"):
        if not path.endswith("01-scope.md"):
            turn(path, lambda text: page(text, pages))


def page(text, names):
    """A page: a name with a dash is one only where it stands as code, since English has such words too."""
    plain = {n: it for n, it in names.items() if "-" not in n}
    parts = re.split(r"(`[^`\n]*`)", text)
    return "".join(WORD.sub(lambda m: (names if p.startswith("`") else plain).get(m.group(0), m.group(0)), p) for p in parts)


def turn(path, by):
    with open(path, encoding="utf-8") as f:
        text = f.read()
    turned = by(text)
    if turned != text:
        with open(path, "w", encoding="utf-8") as f:
            f.write(turned)


main()
