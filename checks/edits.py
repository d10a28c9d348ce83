"""Tries the mutants of crates/NAME/must-fail/*.md that name a function, and prints 'N passed, M failed' last.

Each is an edit of one function that no caller of the crate can call: a line 'function:' with its path in the crate, 'goal:'
with the file and the goal at which the prover has to refuse it, and once or more 'file:', 'old:' (a text that is once in that
file) and 'new:'. A copy of the crate with the edit is checked over the libraries as they are built: the function, and what it
calls. `rt ci` proves the crate without the edit; where GATE_LOG names its log, an edit is tried once that says so.

Who calls a function goes by its clauses, whatever its body. So what an edited function calls by name is shut in the copy:
it has no body, and a hole for its proof, which `rt ci` has seen; else the prover would prove it anew, and all below it.
What else is called has to be proved, so that what is refused is the edited function. Edits of different functions of a
crate stand in one copy. Of a caller of an edited function the prover says that it calls what is not proved, which is no
fault. The copies of a crate are checked one after the other, and each begins with what the checks before it kept.

What is read off a run is first tried on runs that are made up here.
"""
import concurrent.futures
import glob
import itertools
import os
import re
import shutil
import sys
import tempfile

import above
from bodies import is_proved, side_by_side


# A proof that is left open.
PROOF = """use Rattle.{crate}.proofs.{path}.Statement as stated

pub {name}_spec : {{M : Type 1}} → stated.statement M
{name}_spec = ?
"""


def write(file, text):
    with open(file, "w", encoding="utf-8") as it:
        it.write(text)


class Edit:
    """An edit as its file says it."""

    def __init__(self, file):
        self.crate, self.name = file.split("/")[1], os.path.basename(file)[:-3]
        said = re.findall(r"^(\w+): (.+)$", above.text_of(file), re.MULTILINE)
        self.function, self.goal = (dict(said).get(it) for it in ("function", "goal"))
        files, old, new = ([text for key, text in said if key == it] for it in ("file", "old", "new"))
        self.changes = list(zip(files, old, new))
        if not (self.function and self.goal and len(files) == len(old) == len(new) > 0):
            raise ValueError(f"{file} lacks a function, a goal or a change")

    def apply(self, room):
        for file, old, new in self.changes:
            text = above.text_of(f"{room}/{file}")
            if text.count(old) != 1:
                raise ValueError(f"the old text is not in {file} once: {old}")
            write(f"{room}/{file}", text.replace(old, new))


def batched(edits):
    """The edits in batches, each of one crate, and of different functions and goals."""
    batches = []
    for edit in edits:
        for batch in batches:
            if batch[0].crate == edit.crate and all(it.function != edit.function and it.goal != edit.goal for it in batch):
                batch.append(edit)
                break
        else:
            batches.append([edit])
    return batches


def functions_of(modules):
    """The functions of these modules, each a list of lines, by their paths: the module, the lines at which the body begins and
    ends, and the cycle of calls. Left out are methods of traits and of types at given types, and bodies of one line."""
    types = {}
    for module, lines in modules.items():
        named = (re.match(r"(?:pub\S* )?(?:struct|enum) (\w+)", line) for line in lines)
        types.update((it[1], module) for it in named if it)
    found = {}
    for module, lines in modules.items():
        owner = module
        for at, line in enumerate(lines):
            if line == "}":
                owner = module
            elif re.match(r"(?:pub\S* )?(?:impl|trait|mod)\b.*\{$", line):
                block = re.match(r"impl(?:<(.*?)>)? (\w+)(?:<([^<>]*)>)? \{$", line)
                own, given = (set(re.findall(r"'?\w+", block[it] or "")) for it in (1, 3)) if block else ((), ())
                owner = f"{types[block[2]]}::{block[2]}" if block and block[2] in types and given - {"'_"} <= own else None
            head = re.match(r"( *)(?:pub\S* )?fn (\w+)[<(]", line)
            if head and owner:
                begin = next(it for it in range(at, len(lines)) if not lines[it] or re.match(head[1] + r"\S(.*\{)?$", lines[it]))
                attributes = itertools.takewhile(lambda it: it.lstrip().startswith("#["), reversed(lines[:at]))
                cycle = re.search(r"#\[cycle\((\w+)\)\]", "".join(attributes))
                if lines[begin].endswith("{"):
                    path = f"{owner}::{head[2]}".removeprefix("lib::")
                    found[path] = module, begin, lines.index(head[1] + "}", begin), cycle and cycle[1]
    return found


def shut(room, crate, edited):
    """Leaves the clauses alone of each function that is not edited: it has no body, and a hole for its proof. A cycle of calls
    with an edited function stays."""
    files = {os.path.relpath(it, f"{room}/src")[:-3].replace("/", "::"): it for it in glob.glob(f"{room}/src/**/*.rt", recursive=True)}
    modules = {module: above.text_of(file).split("\n") for module, file in files.items()}
    functions = functions_of(modules)
    kept = {functions[it][3] or it.rpartition("::")[2] for it in edited if it in functions}
    for folder in glob.glob(f"{room}/proofs/**/+*", recursive=True):
        if os.path.basename(folder)[1:] not in kept:
            shutil.rmtree(folder)
    for path, (module, begin, end, cycle) in functions.items():
        if path in edited or cycle in kept:
            continue
        lines, name = modules[module], path.rpartition("::")[2]
        lines[begin + 1:end] = ["loop {}", *[""] * (end - begin - 2)]
        if cycle:
            lines[max(it for it in range(begin) if f"#[cycle({cycle})]" in lines[it])] = ""
        folder = f"{room}/proofs/{path.replace('::', '/')}"
        shutil.rmtree(folder, ignore_errors=True)
        os.makedirs(folder)
        write(f"{folder}/Proof.antt", PROOF.format(crate=crate, path=path.replace("::", "."), name=name))
    for module, file in files.items():
        write(file, "\n".join(modules[module]))


def check(batch, uses, kept):
    """What the prover says of the edited functions, and of what they call."""
    crate = batch[0].crate
    libraries = above.below(crate, uses)
    with tempfile.TemporaryDirectory() as room:
        for part in ("src", "specs", "proofs"):
            if os.path.isdir(f"crates/{crate}/{part}"):
                shutil.copytree(f"crates/{crate}/{part}", f"{room}/{part}")
        for edit in batch:
            edit.apply(room)
        shut(room, crate, [it.function for it in batch])
        own = [it for it in libraries if it in uses]
        flags = ["--allow-holes", "--incremental", kept, *(it for edit in batch for it in ("--only", edit.function))]
        return above.check(room, crate, libraries, own, flags)


def callers_of(edited, verdicts):
    """The functions that are not proved since they call one of these, or one that does."""
    found = set()
    for _ in verdicts:
        for name, verdict in verdicts.items():
            said = re.search(r": it calls (`[^`]+`(?: and `[^`]+`)*), which (?:is|are) not proved", f": {verdict}")
            called = set(re.findall(r"`([^`]+)`", said[1])) if said else set()
            if called and called <= edited | found and name not in edited:
                found.add(name)
    return found


def is_met(verdict):
    """Whether a function meets its clauses, given that what is shut does."""
    return verdict == "no holes" or verdict.startswith("depends on a hole in ")


def faults(edit, said, beside=()):
    """Why a run doesn't say that the edited function is refused at its goal, and no other but those of the edits beside it."""
    function = f"{edit.crate}::{edit.function}"
    verdicts = dict(re.findall(r"^fn (\S+): (.*)$", said, re.MULTILINE))
    edited = {f"{it.crate}::{it.function}" for it in (edit, *beside)}
    for other in callers_of(edited, verdicts) | edited - {function}:
        verdicts.pop(other, None)
    told = re.findall(r"^(?:note: )?(?:\./)?(\S+?):\d+:\d+: (.*)$", said, re.MULTILINE)
    goals = [f"{file} {goal}" for file, text in told for goal in re.findall(r"\(`([^`]+)`\)|error: `([^`]+)`", text) for goal in goal if goal]
    found = []
    if is_met(verdicts.pop(function, "no holes")):
        found.append("the edited function is proved, or not reached")
    found += [f"{other} is {verdict}" for other, verdict in verdicts.items() if not is_met(verdict)]
    if edit.goal not in goals:
        found.append(f"its file names the goal {edit.goal}, and the prover {', '.join(goals) or 'none'}")
    return found


REFUSED, OPEN = "fn a::b::f: not proved\nfn a::g: no holes\n", "note: src/b.rt:3:1: it is not proved that it holds (`returns`)"
# What a run could say of an edit of `b::f` of the crate `a` with the goal `src/b.rt returns`, and whether it passes then.
MADE_UP = [
    (REFUSED + OPEN, True),
    (REFUSED + "./proofs/b/f/Answers.antt:1:2: error: `returns`: as printed\n" + OPEN, True),
    (REFUSED, False),
    (REFUSED + "./proofs/b/f/Answers.antt:1:2: error: `returns`: as printed", False),
    (REFUSED + OPEN.replace("returns", "g-requires"), False),
    (REFUSED.replace("not proved", "no holes") + OPEN, False),
    (REFUSED.replace("not proved", "depends on a hole in `g_spec`") + OPEN, False),
    (REFUSED.replace("g: no holes", "g: depends on a hole in `g_spec`") + OPEN, True),
    (REFUSED.replace("g: no holes", "g: not proved") + OPEN, False),
    ("fn a::g: no holes\n" + OPEN, False),
]


# A module that is made up, and where its functions stand.
MODULE = """pub struct S<T> {
    it: T,
}
fn f(it: u8) -> u8
    requires { it < 8 }
{
    it
}
fn at_once() {}

#[cycle(around)]
#[inline]
fn round_and_round() {
    round_and_round()
}
impl<'s, T: Tree> S<T> {
    pub(crate) fn g<A>(
        &self,
    ) -> u8 {
        f(1)
    }
}
impl<T> Drop for S<T> {
    fn drop(&mut self) {
        f(2)
    }
}
impl S<u8> {
    fn h(&self) {
        f(3)
    }
}
"""
PLACES = {"a::f": ("a", 5, 7, None), "a::round_and_round": ("a", 12, 14, "around"), "a::S::g": ("a", 18, 20, None)}


def made_up_edit(crate, function, goal):
    edit = Edit.__new__(Edit)
    edit.crate, edit.name, edit.function, edit.goal = crate, "made_up", function, goal
    return edit


def tries():
    """How many of the runs that are made up are told apart rightly, and how many not."""
    edit, other = made_up_edit("a", "b::f", "src/b.rt returns"), made_up_edit("a", "g", "src/b.rt other")
    wrong = [said for said, passes in MADE_UP if (not faults(edit, said)) != passes]
    both = REFUSED.replace("g: no holes", "g: not proved") + OPEN + "\nfn a::h: no proof: it calls `a::g`, which is not proved"
    both += "\nfn a::i: no proof: it calls `a::h`, which is not proved"
    both += "\nfn a::j: no proof: it calls `a::h` and `a::i`, which are not proved"
    if faults(edit, both, [other]) or not faults(other, both, [edit]) or not faults(edit, both.replace("`a::g`", "`a::z`"), [other]):
        wrong.append(both)
    for said in wrong:
        print(f"edits: the made-up run {said!r} is not told apart")
    found = functions_of({"a": MODULE.split("\n")})
    if found != PLACES:
        wrong.append("functions")
        print(f"edits: the functions of the made-up module are {found}")
    same, same_goal, elsewhere = made_up_edit("a", "b::f", "x"), made_up_edit("a", "h", "src/b.rt other"), made_up_edit("b", "b::f", "y")
    parts = [[edit, other], [same, same_goal], [elsewhere]]
    if batched([edit, other, same, same_goal, elsewhere]) != parts:
        wrong.append("batches")
        print("edits: the made-up edits are not put in batches rightly")
    return len(MADE_UP) + 3 - len(wrong), len(wrong)


def tried(batch, uses, kept):
    """Why each edit of a batch is not refused as it must be, and what the run said."""
    if not is_proved(batch[0].crate):
        return [["the crate is not proved"]] * len(batch), ""
    try:
        said = check(batch, uses, kept)
    except (OSError, ValueError) as why:
        return [[str(why)]] * len(batch), ""
    return [faults(it, said, [other for other in batch if other is not it]) for it in batch], said


def tried_in_turn(batches, uses):
    """The same for each batch of one crate."""
    with tempfile.TemporaryDirectory() as kept:
        return [(batch, *tried(batch, uses, kept)) for batch in batches]


def main():
    uses = above.listed()
    files = above.mutants(sys.argv[1:], of_one_function=True)
    passed, failed = tries()
    made_up = passed
    by_crate = {}
    for batch in batched([Edit(it) for it in files]):
        by_crate.setdefault(batch[0].crate, []).append(batch)
    with concurrent.futures.ThreadPoolExecutor(side_by_side()) as pool:
        runs = pool.map(lambda it: tried_in_turn(it, uses), by_crate.values())
        for batch, whys, said in (run for crate in runs for run in crate):
            passed, failed = passed + whys.count([]), failed + len(whys) - whys.count([])
            if any(whys):
                print(said[-6000:])
            for edit, why in zip(batch, whys):
                for it in why:
                    print(f"edits: {edit.crate}/{edit.name}: {it}")
    if not files:
        print("edits: there are no edits of one function")
        failed += 1
    print(f"mutants rejected at their goals: {passed - made_up} of {len(files)} in one function")
    print(f"{passed} passed, {failed} failed")
    return 0 if failed == 0 else 1


if __name__ == "__main__":
    sys.exit(main())
