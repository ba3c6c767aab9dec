#!/usr/bin/env python3
"""Brings the must-fail edits over to today's spelling.

usage, at the top of the repository:
  tools/port_edits.py --check          lists each edit that does not stand: an `old:` text that is not in its file exactly once
  tools/port_edits.py --words          lists the words of the `new:` texts that the changed .antt file has nowhere else: each must be in scope there
  tools/port_edits.py --from COMMIT    turns, of the edits of COMMIT, those that do not stand as they now are. COMMIT is the repository before the port
  with --all each edit is turned; with --dry nothing is written

Each word of an edit turns as the words of the file that it changes did: the file of COMMIT and the file as it now is are set side by
side, line by line. What no line of the file has turns as it did in the other files. The edits in HAND were turned by hand and stay.
"""

import collections
import difflib
import glob
import re
import subprocess
import sys

WORD = re.compile(r"[^\s(){}.;,@\"«»⟨⟩⌜⌝`\[\]'λ]+'*")
# Edits that were turned by hand.
HAND = set(
    """
    accounts/code_overwritten
    accounts/written_although_refused
    alike/specs_directions_differ
    calendar/length_off_by_one_2100
    cap/all_use_in_one_month
    cap/days_over_365
    cap/equal_is_over
    cap/maximum_rounded_before_comparing
    checks/9_behind_the_rest
    desks/tariff_of_any_regions_used
    history/specs_two_steps_kept
    protocol/specs_error_drops_a_place
    putting/step_survives_a_put
    rebates/specs_the_last_refused_place
    sheet/halves_down
    slatewhim/list_as_it_was
    tariff/specs_sum_of_the_first_offered_alone
    verdict/economy_7_at_580
    """.split()
)


def shown(commit, path):
    return subprocess.run(["git", "show", f"{commit}:{path}"], capture_output=True, check=True).stdout.decode("utf-8")


def listed(commit):
    out = subprocess.run(["git", "-c", "core.quotePath=false", "ls-tree", "-r", "--name-only", commit, "crates"], capture_output=True, check=True)
    return out.stdout.decode("utf-8").split("\n")


def read(path):
    with open(path, encoding="utf-8", newline="") as f:
        return f.read()


def pairs_of(text):
    path, old = "", None
    for line in text.split("\n"):
        if line.startswith("file: "):
            path = line[len("file: ") :].strip()
        elif line.startswith("old: "):
            old = line[len("old: ") :]
        elif line.startswith("new:"):
            yield path, old, line[len("new:") :].removeprefix(" ")


def applied(text, source):
    """The files that the edit changes, or why it does not stand."""
    files = {}
    for path, old, new in pairs_of(text):
        if path not in files:
            files[path] = source(path)
        n = files[path].count(old)
        if n != 1:
            return files, f"{path} has it {n} times: {old}"
        files[path] = files[path].replace(old, new)
    return files, None


def edits():
    return sorted(glob.glob("crates/*/must-fail/*.edit"))


def short(path):
    return path.split("/")[1] + "/" + path.split("/")[3].removesuffix(".edit")


def crate_of(path):
    return "/".join(path.split("/")[:2]) + "/"


def norm(line):
    line = re.sub(r"(?<=[a-z0-9₀-₉])([A-Z])", lambda m: "_" + m[1].lower(), line)
    return re.sub(r"[^a-z0-9]+", "", line.lower())


def aligned(a, b):
    """The line of b that stands for each line of a."""
    na, nb = [norm(x) for x in a], [norm(x) for x in b]
    to = {}
    for tag, i1, i2, j1, j2 in difflib.SequenceMatcher(None, na, nb, autojunk=False).get_opcodes():
        if tag == "equal" or tag == "replace" and i2 - i1 == j2 - j1:
            to.update({i: j1 + i - i1 for i in range(i1, i2)})
        elif tag == "replace":
            for i in range(i1, i2):
                to[i] = max(range(j1, j2), key=lambda j: difflib.SequenceMatcher(None, na[i], nb[j]).ratio())
    return to


def learn(a, b, words):
    la, lb = a.split("\n"), b.split("\n")
    for i, j in aligned(la, lb).items():
        if re.match(r"\s*(ghost )?use ", la[i]) or "⌜" in la[i]:
            continue
        wa, wb = WORD.findall(la[i]), WORD.findall(lb[j])
        if len(wa) == len(wb):
            for x, y in zip(wa, wb):
                if norm(x) == norm(y) or len(wa) > 3:
                    words[x][y] += 1


class Turn:
    """The words of one file, and behind them those of all."""

    def __init__(self, here, everywhere):
        self.here, self.everywhere = here, everywhere

    def word(self, w):
        for table in (self.here, self.everywhere):
            if w in table:
                return table[w].most_common(1)[0][0]
        return w

    def words(self, text):
        return WORD.sub(lambda m: self.word(m[0]), text)


STOP = set("= ≡ → × ↔ λ : ∷ && || + - * / ^ % < ≤ ++ ⊎ ∧ ∨ ≢ -ℤ +ℤ *ℤ ≤ℤ <ℤ ⌊/⌋ pub use let in of record case elim then else".split()) | set("{};,[]⌜⌝")


def tight(text):
    """`x .f` written tight: `x.f`, `(g x).f`, and no brackets round a path alone."""
    while True:
        m = re.search(r"(?<=\S) \.(?=[^\W\d])", text)
        if not m:
            break
        # The operand is the application that ends before the dot.
        i = m.start()
        start, atoms = i, 0
        while True:
            k = start
            while k > 0 and text[k - 1] == " ":
                k -= 1
            if k == 0:
                break
            if text[k - 1] == ")":
                deep, e = 0, k
                while e > 0:
                    e -= 1
                    deep += (text[e] == ")") - (text[e] == "(")
                    if not deep:
                        break
                if deep:
                    break
                start, atoms = e, atoms + 1
                continue
            if text[k - 1] == ".":
                break
            if k != start or not atoms:
                e = k
                while e > 0 and text[e - 1] not in " ({;,[)]}⌜\n":
                    e -= 1
                w = text[e:k]
                if not w or w in STOP:
                    break
                if e > 0 and text[e - 1] == ")":
                    # a bracket with a path behind it, as `(g x).f`
                    deep = 0
                    while e > 0:
                        e -= 1
                        deep += (text[e] == ")") - (text[e] == "(")
                        if not deep:
                            break
                start, atoms = e, atoms + 1
                continue
            break
        operand = text[start:i]
        text = text[:start] + (operand if atoms == 1 else f"({operand})") + "." + text[m.end() :]
    path = r"[^\W\d][\w'₀-₉]*(?:\.[^\W\d][\w'₀-₉]*)+"
    text = re.sub(r"(?<![^\s(])\((" + path + r")\)(?!\.)", r"\1", text)
    # `((g x).f)` is `(g x).f`
    return re.sub(r"(?<![^\s(])\((\((?:[^()]|\((?:[^()]|\([^()]*\))*\))*\)(?:\.[^\W\d][\w'₀-₉]*)+)\)(?!\.)", r"\1", text)


def turned(text, turn, antt):
    return tight(turn.words(text)) if antt else text


def tables(commit):
    files = [p for p in listed(commit) if re.search(r"/(specs|proofs)/.*\.antt$", p)]
    every, by = collections.defaultdict(collections.Counter), {}
    for p in files:
        try:
            now = read(p)
        except OSError:
            continue
        here = collections.defaultdict(collections.Counter)
        learn(shown(commit, p), now, here)
        by[p] = here
        for x, ys in here.items():
            every[x].update(ys)
    return every, by


def main(argv):
    if "--check" in argv:
        bad = 0
        for e in edits():
            crate = crate_of(e)
            try:
                _, why = applied(read(e), lambda p: read(crate + p))
            except OSError as err:
                why = str(err)
            if why:
                bad += 1
                print(f"{e}: {why}")
        print(f"{len(edits())} edits, {bad} do not stand")
        return 1 if bad else 0
    if "--words" in argv:
        token = re.compile(r"[^\W\d][\w'₀-₉?!]*|[^\s\w(){}\[\];,.\"'`]+")
        for e in edits():
            crate, said = crate_of(e), {}
            for path, _, new in pairs_of(read(e)):
                if path.endswith(".antt"):
                    code = "\n".join(line for line in read(crate + path).split("\n") if not line.lstrip().startswith("--"))
                    have = set(token.findall(code)) | set(re.findall(r"◌([^\s◌]+)◌", code))
                    said.update({w: None for w in token.findall(new) if w not in have})
            if said:
                print(f"{e}: {' '.join(said)}")
        return 0
    if "--from" in argv:
        commit = argv[argv.index("--from") + 1]
        every, by = tables(commit)
        left = 0
        for e in edits():
            crate = crate_of(e)
            if short(e) in HAND or "--all" not in argv and not applied(read(e), lambda p: read(crate + p))[1]:
                continue
            text = shown(commit, e)
            out, path = [], ""
            for line in text.split("\n"):
                if line.startswith("file: "):
                    path = crate + line[len("file: ") :].strip()
                elif line.startswith(("old: ", "new: ")):
                    antt = path.endswith(".antt")
                    line = line[:5] + turned(line[5:], Turn(by.get(path, {}), every), antt)
                out.append(line)
            new = "\n".join(out)
            _, why = applied(new, lambda p: read(crate + p))
            if why:
                left += 1
                print(f"{e}: {why}")
            if "--dry" not in argv and new != read(e):
                with open(e, "w", encoding="utf-8", newline="") as f:
                    f.write(new)
        print(f"{left} are left")
        return 0
    print(__doc__)
    return 2


if __name__ == "__main__":
    raise SystemExit(main(sys.argv[1:]))
