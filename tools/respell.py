#!/usr/bin/env python3
"""Spells this repository's own definitions and lemmas as today's Rattle does: words in snake case, types and modules in camel case.

usage: tools/respell.py [--check]      at the top of the repository, once, after port.py

A name that a file of specs/ or proofs/ declares turns where it is written as lowerCamel or with dashes, in the code of .antt files and
in the clauses, ghost items and comments of .rt files. The names that Rattle makes (the goals of a proof file), the
functions of src/, strings, inputs and outputs stay. --check writes nothing and lists the names that would fall together.
"""

import collections
import glob
import re
import sys

WORD = re.compile(r'[^\s(){}.;,@"«»⟨⟩⌜⌝`\[\]\'λ]+[\']*')
DECLARED = re.compile(r"^\s*(?:-- )?(?:(?:pub|abbrev|unfoldable|field) )*([^\s(){}.;,@\"«»:]+)(?: \{[^{}\n]*\})* :(?: |$)")
MADE = re.compile(r":.*\b(?:tie|goal|old)\.|:.*→ statement M")

# Names that would otherwise fall together with another, or with a name of the library, and what they are called instead.
APART = {
    "accepted-number": "accepted_number_lem",
    "accounts-of": "accounts_of_lem",
    "all-in-one": "all_in_one_lem",
    "answer-of": "answer_of_lem",
    "charge-most": "charge_most_lem",
    "common-fields": "common_fields_lem",
    "confirm-answer": "confirm_answer_lem",
    "days-most": "days_most_lem",
    "direct-answer": "direct_answer_lem",
    "due-by": "due_by_lem",
    "figures-in": "figures_in_lem",
    "figures-under": "figures_under_lem",
    "first-greatest": "first_greatest_lem",
    "found-at": "found_at_lem",
    "has-feed": "has_feed_lem",
    "in-force": "in_force_lem",
    "in-region": "in_region_lem",
    "is-full": "is_full_lem",
    "is-image": "is_image_lem",
    "kept-after": "kept_after_lem",
    "level-most": "level_most_lem",
    "levels-at": "levels_at_lem",
    "long-line": "long_line_lem",
    "maximum-in": "maximum_in_lem",
    "month-most": "month_most_lem",
    "months-in": "months_in_lem",
    "months-most": "months_most_lem",
    "most-added": "most_added_lem",
    "no-account": "no_account_lem",
    "no-book": "no_book_lem",
    "no-sheet": "no_sheet_lem",
    "nothing-kept": "nothing_kept_lem",
    "one-step": "one_step_lem",
    "open-answer": "open_answer_lem",
    "rate-most": "rate_most_lem",
    "record-length": "record_length_lem",
    "refusal-told": "refusal_told_lem",
    "standing-most": "standing_most_lem",
    "told-by": "told_by_lem",
    "total-most": "total_most_lem",
    "undo-answer": "undo_answer_lem",
    "valid-kind": "valid_kind_lem",
    "worst-months": "worst_months_lem",
}
# Names that stay: they are not ours.
STAY = set()


def camel(name):
    return "".join(w[:1].upper() + w[1:] for w in re.split("[-_]", name))


def snake(name):
    if name[0].isupper():
        return camel(name) if re.search("[a-z][-_][a-z]", name) else name
    return re.sub(r"(?<=[a-z0-9₀-₉])([A-Z])", lambda m: "_" + m[1].lower(), name).replace("-", "_")


def texts(*endings):
    for ending in endings:
        yield from sorted(p for p in glob.glob("crates/*/" + ending, recursive=True) if "/out/" not in p)


def table():
    names = {}
    for path in texts("specs/**/*.antt", "proofs/**/*.antt"):
        with open(path, encoding="utf-8") as f:
            lines = f.read().split("\n")
        for i, line in enumerate(lines):
            m = DECLARED.match(line)
            if not m or line.lstrip().startswith("--"):
                continue
            head = line + (" " + lines[i + 1] if i + 1 < len(lines) and line.rstrip().endswith(":") else "")
            if MADE.search(head) or m[1] in STAY:
                continue
            name = m[1]
            if not name[0].isalpha() or snake(name) == name:
                continue
            names[name] = APART.get(name, snake(name))
    return names


def turned(text, names):
    return WORD.sub(lambda m: names.get(m[0], m[0]), text)


def in_antt(text, names):
    return "\n".join(turned(line, names) for line in text.split("\n"))


CLAUSE = re.compile(r"(?:requires|ensures)\s*\*?\s*(?:\w+\s*)?\{|ghost\s+[^;{]*\{")


def closing(text, i):
    deep = 0
    for k in range(i, len(text)):
        deep += (text[k] == "{") - (text[k] == "}")
        if not deep:
            return k + 1
    return len(text)


def in_rt(text, names):
    out, i = [], 0
    while i < len(text):
        m = CLAUSE.search(text, i)
        c = text.find("//", i)
        if c >= 0 and (not m or c < m.start()):
            end = text.find("\n", c)
            end = len(text) if end < 0 else end
            out += [text[i:c], SPAN.sub(lambda s: turned(s[0], names), text[c:end])]
            i = end
        elif m:
            end = closing(text, m.end() - 1)
            out += [text[i : m.start()], turned(text[m.start() : end], names)]
            i = end
        else:
            out.append(text[i:])
            break
    return "".join(out)


SPAN = re.compile(r"`[^`\n]*`")


def main(argv):
    names = table()
    if "--check" in argv:
        taken = collections.defaultdict(set)
        for path in texts("specs/**/*.antt", "proofs/**/*.antt", "src/*.rt"):
            with open(path, encoding="utf-8") as f:
                t = f.read()
            words = {w[0] for line in t.split("\n") if not line.lstrip().startswith(("--", "//")) for w in WORD.finditer(line)}
            for old, new in names.items():
                if new in words and old in words:
                    taken[old].add(path)
        met = collections.defaultdict(list)
        for old, new in names.items():
            met[new].append(old)
        for new, olds in sorted(met.items()):
            if len(olds) > 1:
                print("two:", new, olds)
        for old, paths in sorted(taken.items()):
            print("taken:", old, names[old], sorted(paths)[:4], len(paths))
        print(len(names), "names")
        return 0
    for path in texts("specs/**/*.antt", "proofs/**/*.antt", "src/*.rt"):
        with open(path, encoding="utf-8", newline="") as f:
            t = f.read()
        new = {"antt": in_antt, "rt": in_rt}[path.rsplit(".", 1)[1]](t, names)
        if new != t:
            with open(path, "w", encoding="utf-8", newline="") as f:
                f.write(new)
    print(len(names), "names respelled")
    return 0


if __name__ == "__main__":
    raise SystemExit(main(sys.argv[1:]))
