"""Compares docs/MUTANTS.md with the files, and prints 'N passed, M failed' last.

Each mutant of crates/NAME/must-fail and of checks/memory stands in the table once, and each of the table has its file, which
names the goal at which it is rejected, or the tests that reject it. What is said of tables and files is first tried on some that
are made up here.
"""
import glob
import os
import re
import sys


def text_of(file):
    with open(file, encoding="utf-8") as it:
        return it.read()


def names_what_rejects_it(text):
    """Whether a mutant's file names the goal at which it is rejected, or the tests that have to fail."""
    return re.search(r"^(goal|fails): .", text, re.MULTILINE) is not None


def bodies():
    """Each mutant's name, as `crate/name` or `memory/name`, and whether its file names what rejects it. No file of a crate may end
    in .edit: `rt ci` tries such mutants, by a check of the whole crate, and nobody compares their goals."""
    files = [(it.split("/")[1], it, ".md") for it in glob.glob("crates/*/must-fail/*")]
    files += [("memory", it, ".edit") for it in glob.glob("checks/memory/*.edit")]
    return {f"{room}/{os.path.basename(it).removesuffix(end)}": names_what_rejects_it(text_of(it)) for room, it, end in files}


def named(text):
    """The mutants of the table's last cells, which have `crate: mutants; crate: mutants`."""
    table = re.search(r"^\| Guarantee \| Mutants \|\n\|[-|]+\n((?:\|.*\n)*)", text, re.MULTILINE)
    found = []
    for line in table[1].splitlines() if table else []:
        for part in re.split(r"(?<!\\)\|", line)[-2].split(";"):
            crate, _, names = part.partition(":")
            found += [f"{crate.strip()}/{it.strip(' `')}" for it in names.split(",")]
    return found


def judge(table, files):
    """How many mutants are named once and name what rejects them, and what is wrong with the others."""
    wrong = [f"{it} has no file" for it in table if it not in files]
    wrong += [f"{it} is named {table.count(it)} times" for it in sorted(files) if table.count(it) != 1]
    wrong += [f"{it} names neither a goal nor tests" for it in sorted(files) if not files[it]]
    broken = {line.split()[0] for line in wrong}
    return len([it for it in files if it not in broken]), wrong


# Rows and files that are made up, how many of the mutants are right, and how many faults there are.
TABLE = "| Guarantee | Mutants |\n|---|---|\n"
MADE_UP = [
    ("| of `x \\| y` | a: `b` |\n", {"a/b": True}, 1, 0),
    ("| p | a: `b`, `c`; memory: `b` |\n", {"a/b": True, "a/c": True, "memory/b": True}, 3, 0),
    ("| p | a: `b`; d: `c` |\n", {"a/b": True, "a/c": True}, 1, 2),
    ("", {"a/b": True}, 0, 1),
    ("| p | a: `b` |\n| q | a: `b` |\n", {"a/b": True}, 0, 1),
    ("| p | a: `b` |\n", {"a/b": False}, 0, 1),
]


def main():
    passed, failed = 0, 0
    for lines, files, right, faults in MADE_UP:
        found = judge(named(TABLE + lines), files)
        is_right = (found[0], len(found[1])) == (right, faults)
        passed, failed = passed + is_right, failed + (not is_right)
        if not is_right:
            print(f"mutants: the made-up rows {lines!r} are judged {found}")
    right, wrong = judge(named(text_of("docs/MUTANTS.md")), bodies())
    print("\n".join([*(f"mutants: {it}" for it in wrong), f"{passed + right} passed, {failed + len(wrong)} failed"]))
    return 0 if failed + len(wrong) == 0 and right else 1


if __name__ == "__main__":
    sys.exit(main())
