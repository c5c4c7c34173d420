"""Run once, after the kit's port.py: the names that this repository declares in specs/ and proofs/ in snake case, in every crate, edit and page.

A name is turned where it is declared in an .antt file of crates/: one in lower camel case, or with a dash. Names of Rust's items, names of the
kit's library and names that the prover makes keep their spelling. Two names that would fall together are parted by TOLD_APART. With --again
names in snake case stay, for a tree that was turned before."""
import collections
import glob
import os
import re
import subprocess
import sys

# The kit's library lies beside the page that 'rt doc' names.
KIT = os.path.join(os.path.dirname(subprocess.run(["rt", "doc"], capture_output=True, text=True, stdin=subprocess.DEVNULL).stdout.strip()), "rattle")
WORD = re.compile(r"[A-Za-z][\w'-]*")
DECLARED = re.compile(
    r"^\s*(?:(?:abbrev|unfoldable|opaque|pub|private|inductive|where) )*([A-Za-z][\w'-]*)(?:\s+\{[^}]*\}|\s+\([^)]*\))*\s*:(?:\s+(.*))?$"
)
# Of two names that fall together the one on the left gets the name on the right.
TOLD_APART = {
    "after-word": "word_passed",
    "arrival-taken": "arrival_was_taken",
    "contender-on": "contender_still_on",
    "handed-back": "is_handed_back",
    "hands-back": "hands_it_back",
    "in-turn": "turn_kept",
    "is-refused": "refused_is",
    "said-by": "said_so_by",
    "settings-said": "settings_are_said",
    "station-taken": "station_was_taken",
    "with-arrival": "with_one_arrival",
    "addressesApart": "addresses_all_apart",
    "begun-form": "begun_whole",
    "bit-at": "bit_at_remainder",
    "bit-of": "bit_of_test",
    "coded-admit": "coded_admit_form",
    "coded-begin": "coded_begin_form",
    "coded-closing": "coded_closing_form",
    "coded-probe": "coded_probe_form",
    "coded-step": "coded_step_form",
    "contender-at": "contender_at_place",
    "contender-form": "contender_is_form",
    "contention-form": "contention_is_form",
    "contention-of": "contention_of_form",
    "fields-from": "fields_are_from",
    "first-or": "first_or_else",
    "first-place": "first_placed",
    "goesOn": "going_further",
    "in_halves": "in_halves_exact",
    "in-row": "within_row",
    "in-time": "on_time",
    "in_window": "in_window_bounds",
    "last-winner": "winner_last_stands",
    "liesIn": "lies_within",
    "moved-right": "moved_right_free",
    "no-arrival": "no_arrival_fault",
    "no-contender": "has_no_contender",
    "no-packet": "has_no_packet",
    "no-station": "has_no_station",
    "number-shown": "number_is_shown",
    "numbers-in": "numbers_at_most",
    "oneMore": "one_higher",
    "opened-by": "opened_from",
    "parameter-fits": "offer_fits",
    "probes-bounded": "probes_within",
    "probesBounded": "probes_are_bounded",
    "probes-left": "probes_left_some",
    "round-form": "round_is_form",
    "same-side": "same_side_equal",
    "set-up": "set_up_call",
    "shown-at": "shown_at_place",
    "shown_by": "shown_by_test",
    "standsExactly": "stands_exactly_so",
    "station-at": "station_at_place",
    "station-lines": "station_line_rows",
    "stretch-of": "stretch_of_form",
    "take-arrival": "arrival_taken",
    "take-arrivals": "arrivals_taken",
    "take-attempt": "attempt_taken",
    "take-bus": "bus_line_taken",
    "take-kind": "kind_taken",
    "take-line": "line_is_taken",
    "take-run": "run_line_taken",
    "take-said": "said_taken",
    "take-station": "station_taken",
    "totals-form": "totals_of_form",
    "turned-away": "turning_away",
    "turned-in": "turned_within",
    "underWay": "open_under_way",
    "value-fits": "value_is_fit",
    "wins-left": "wins_left_some",
    "with-arrivals": "with_many_arrivals",
}


def texts(pattern):
    return [p for p in sorted(glob.glob(pattern, recursive=True)) if "/out/" not in p and os.path.isfile(p)]


def read(path):
    with open(path, encoding="utf-8") as f:
        return f.read()


def snake(name):
    name = name.replace("-", "_")
    name = re.sub(r"([a-z0-9'])([A-Z])", r"\1_\2", name)
    name = re.sub(r"([A-Z])(?=[A-Z][a-z])", r"\1_", name)
    return name if name.replace("_", "").isupper() else name.lower()


def declared():
    found, made = set(), set()
    for path in texts("crates/**/*.antt"):
        for line in read(path).split("\n"):
            it = DECLARED.match(re.sub(r"--.*", "", line))
            if it:
                (made if (it[2] or "").startswith(("tie.", "goal.")) else found).add(it[1])
    return found - made


def library():
    found = set()
    for path in texts(KIT + "/**/*.antt"):
        if not os.path.islink(path):
            found.update(WORD.findall(read(path)))
    return found


def renames():
    own = declared()
    taken = library()
    names = {}
    for name in sorted(own):
        if name in TOLD_APART and ("--again" not in sys.argv or re.search("-|[a-z][A-Z]", name)):
            names[name] = TOLD_APART[name]
        elif name in taken or not (name[0].islower() or "-" in name):
            continue
        elif snake(name) != name:
            names[name] = snake(name)
    after = collections.defaultdict(set)
    for name in own:
        after[names.get(name, name)].add(name)
    for name, those in sorted(after.items()):
        if len(those) > 1:
            print("fall together:", name, sorted(those))
    return names


def turned(text, names):
    """The text with the names turned; one that might be a function's of src/, in snake case before, only where it is no part of a path."""

    def name(it):
        new = names.get(it[0], it[0])
        if new == it[0] or re.search("-|[a-z][A-Z]", it[0]):
            return new
        return it[0] if it.string[: it.start()].endswith(".") or it.string[it.end() :].startswith(".") else new

    return WORD.sub(name, text)


def code(text, names, comment):
    """The text with the names turned; in comments only what stands in backticks and names in camel case, and no strings."""
    out = []
    for line in text.split("\n"):
        parts = re.split(r'("(?:[^"\\\n]|\\.)*")', line)
        done, said = [], False
        for part in parts:
            if said:
                done.append(page(part, names))
            elif part.startswith('"'):
                done.append(part)
            elif comment in part:
                at = part.index(comment)
                done.append(turned(part[:at], names) + page(part[at:], names))
                said = True
            else:
                done.append(turned(part, names))
        out.append("".join(done))
    return "\n".join(out)


def page(text, names):
    """The same of prose."""
    camel = {old: new for old, new in names.items() if re.search(r"[a-z][A-Z]", old)}
    parts = re.split(r"(`[^`\n]*`)", text)
    return "".join(turned(p, names if p.startswith("`") else camel) for p in parts)


def main():
    names = renames()
    if "--names" in sys.argv:
        for old, new in sorted(names.items()):
            print(old, new)
        return
    dashed = {old: new for old, new in names.items() if re.search("-|[a-z][A-Z]", old)}
    for pattern, comment in (("crates/**/*.antt", "--"), ("crates/**/*.rt", "//"), ("crates/*/must-fail/*.edit", "\0")):
        for path in texts(pattern):
            text = read(path)
            new = code(text, names if path.endswith(".antt") and not path.endswith("/Unique.antt") else dashed, comment)
            if new != text:
                with open(path, "w", encoding="utf-8") as f:
                    f.write(new)
    for path in texts("*.md") + texts("docs/*.md") + texts("bench/*.md") + texts("examples/*.md"):
        text = read(path)
        new = page(text, names)
        if new != text:
            with open(path, "w", encoding="utf-8") as f:
                f.write(new)


main()
