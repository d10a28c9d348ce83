"""Tries the wrong bodies of crates/NAME/must-fail/*.md that name no function, and prints 'N passed, M failed' last.

Each names a public call, the file with its contract, and the goal at which the prover has to refuse the body. The call's
head and clauses are taken from that file as they stand there, and the body is put under them in a crate above the
libraries. Beside those of a call, under the same clauses, stands a body that only makes the call: it has to be proved, so
that what is refused is the wrong body and not the clauses in their new place. The bodies of the crates `jsonpath_..` are checked
in one run, those of `jpath_..` in another.

A call that has its clauses by a trait has no such lines: there the file of the body says the head and the clause, and the
body beside it shows that the call meets them.

Where GATE_LOG names the log of an `rt ci` that goes on, bodies are tried once the log says that their crates are proved.

What is read off a run is first tried on runs that are made up here.
"""
import concurrent.futures
import os
import re
import sys
import tempfile
import time

import above
from above import below, listed, text_of

# What bodies and clauses name of the kit's crates that the libraries stand on, and of std.
OTHERS = {
    "json": ["Scratch", "Value as Exact"],
    "std::cmp": ["Ordering"],
    "serde_json": ["Map", "Number", "Value"],
    "serde": ["DeserializeOwned"],
    "std::alloc": ["AllocError", "Global"],
    "std::rc": ["Rc"],
}


def closed(text, at):
    """The place of the bracket that closes the one at this place."""
    depth = 0
    for end in range(at, len(text)):
        c = text[end]
        depth += 1 if c in "(<[" else -1 if c in ")]" or (c == ">" and text[end - 1] != "-") else 0
        if depth == 0:
            return end
    raise ValueError("a bracket is not closed")


def split(text):
    """The parts of a list between commas, where brackets of all kinds stand in pairs."""
    found, depth = [""], 0
    for at, c in enumerate(text):
        depth += 1 if c in "(<[" else -1 if c in ")]" or (c == ">" and text[at - 1] != "-") else 0
        if c == "," and depth == 0:
            found.append("")
        else:
            found[-1] += c
    return [it for it in found if it.strip()]


def parts(head):
    """A function's name, what stands in `<>` and in `()` behind it, and the rest."""
    name, generics = re.match(r"fn (\w+)", head)[1], ""
    at = len(f"fn {name}")
    if head[at] == "<":
        end = closed(head, at)
        generics, at = head[at + 1:end], end + 1
    end = closed(head, at)
    return name, generics, head[at + 1:end], head[end + 1:]


class Body:
    """A wrong body, as its file says it: the crate, the call's file and path, the goal, and the lines of the body."""

    def __init__(self, file):
        self.crate, self.name = file.split("/")[1], os.path.basename(file)[:-3]
        self.module_name = f"{self.crate}_{self.name}"
        self.right = self.module_name
        text = text_of(file)
        self.said = dict(re.findall(r"^(file|call|goal|head|clause): (.+)$", text, re.MULTILINE))
        self.lines = re.findall(r"^    (.*)$", text, re.MULTILINE)
        lacking = [it for it in ("file", "call", "goal") if it not in self.said]
        if lacking or not self.lines:
            raise ValueError(f"{file} lacks {lacking[0] if lacking else 'a body'}")
        *self.within, self.function = self.said["call"].split("::")
        if "head" in self.said:
            self.within, self.function = [], parts(self.said["head"])[0]
        self.source = text_of(f"crates/{self.crate}/{self.said['file']}").split("\n")

    def is_method(self):
        return bool(self.within) and self.within[-1][0].isupper()

    def begins(self, line):
        return re.match(rf"\s*(pub )?fn {self.function}[<(]", line)

    def begins_trait(self, line):
        return line == f"pub trait {self.within[-1]} {{"

    def owner(self):
        """The type whose method is called, its parameters, and the lines of its block; all lines for a function. A trait's
        method is called at a type `P` that has the trait."""
        if not self.is_method():
            return None, "", (0, len(self.source))
        for at, line in enumerate(self.source):
            found = re.match(rf"impl(<[^>]*>)? (?:[\w:<>]+ for )?({self.within[-1]}\b.*?) \{{$", line)
            if found or self.begins_trait(line):
                end = next(it for it in range(at, len(self.source)) if self.source[it] == "}")
                if any(self.begins(it) for it in self.source[at:end]):
                    return (found[2], (found[1] or "")[1:-1], (at, end)) if found else ("P", f"P: {self.within[-1]}", (at, end))
        raise ValueError(f"{self.name}: {self.said['file']} has no method {self.said['call']}")

    def head(self):
        """The call's head and clauses as a function by itself: its receiver is called `this`."""
        if "head" in self.said:
            return f"{self.said['head']}\n    ensures {{ {self.said['clause']} }}"
        kind, generics, (at, end) = self.owner()
        begin = next((it for it in range(at, end) if self.begins(self.source[it])), None)
        if begin is None:
            raise ValueError(f"{self.name}: {self.said['file']} has no function {self.said['call']}")
        indent = re.match(r"\s*", self.source[begin])[0]
        stop = next(it for it in range(begin, end) if self.source[it] == indent + "{")
        head = "\n".join(it[len(indent):] for it in self.source[begin:stop]).removeprefix("pub ")
        if kind and self.begins_trait(self.source[at]):
            members = re.findall(r"^    ghost (\w+):", "\n".join(self.source[at:end]), re.MULTILINE)
            head = re.sub(rf"(?<![\w.])({'|'.join(members)})\b", r"P.\1", head)
        return self.freed(head, kind, generics) if kind else head

    def freed(self, head, kind, generics):
        """A method's head as that of a function. What it lends, it lends of the receiver."""
        name, own, given, rest = parts(head)
        cut = re.search(r"\n\s+(requires|ensures)\b|$", rest).start()
        taken, clauses = rest[:cut], rest[cut:]
        lends = re.search(r"&(mut )?self\b", given) and re.search(r"&(?!')|'_", taken)
        if lends:
            taken = re.sub(r"&(?!')", "&'this ", taken).replace("'_", "'this")
        lent = "'this " if lends else ""
        given = re.sub(r"&(mut )?self\b", lambda it: f"this: &{lent}{it[1] or ''}{kind}", given)
        given = re.sub(r"\bself\b", f"this: {kind}", given)
        own = split(", ".join(it for it in ("'this" if lends else "", generics, own) if it))
        own = ", ".join(sorted(map(str.strip, own), key=lambda it: not it.startswith("'")))
        types = re.sub(r"\bSelf\b", kind, f"({given}){taken}")
        return f"fn {name}" + (f"<{own}>" if own else "") + types + re.sub(r"\bself\b", "this", clauses)

    def call(self, head):
        """The call itself, with the parameters of this head."""
        if "head" in self.said:
            return self.said["call"]
        names = [it.strip().removeprefix("mut ").split(":")[0] for it in split(parts(head)[2])]
        return f"{'' if self.is_method() else self.crate + '::'}{self.said['call']}({', '.join(names)})"

    def module(self, lines, given):
        """A file with this body under the call's clauses."""
        head = self.head()
        words = set(re.findall(r"\w+", head + "\n".join(lines))) - {self.function}
        uses, taken = [], set()
        for library, names in given:
            wanted = sorted(it for it in names if it.split()[-1] in words - taken)
            taken.update(it.split()[-1] for it in wanted)
            if wanted:
                uses.append(f"use {library}::{{{', '.join(wanted)}}};")
        uses += ["use std::fmt;"] * ("fmt::" in head)
        ghost = [it for it in self.source if it.startswith("ghost use ") and ".specs.plan." not in it and it.endswith(";")]
        if "head" in self.said:
            ghost += [it.strip() for it in self.source if it.startswith("    ghost use ")]
        body = [f"    {it}".rstrip() for it in lines]
        return "\n".join([*ghost, "", *uses, "", "pub " + head, "{", *body, "}", ""])


def given_out(libraries):
    """The names that each library gives out, and those of `OTHERS`."""
    found = []
    for library in libraries:
        text = text_of(f"crates/{library}/src/lib.rt")
        lists = re.findall(r"^pub use [\w:]*?(?:\{([^}]*)\}|(\w+));", text, re.MULTILINE)
        found.append((library, [name.strip() for it in lists for name in "".join(it).split(",") if name.strip()]))
    return [*found, *OTHERS.items()]


def check(bodies, uses):
    """What the prover says of these bodies and, beside each, of its call alone."""
    crates = {it.crate for it in bodies}
    libraries = below("bodies", {**uses, "bodies": [it for it in reversed(uses) if it in crates]})
    with tempfile.TemporaryDirectory() as room:
        os.makedirs(f"{room}/src")
        names, calls = [], {}
        for body in bodies:
            given = given_out([it for it in [body.crate, *below(body.crate, uses)] if it in uses])
            call = body.crate, body.said["file"], body.call(body.head()), body.head()
            body.right = calls.setdefault(call, body.module_name)
            for kind, lines in (("wrong", body.lines), ("right", [body.call(body.head())])):
                if kind == "wrong" or body.right == body.module_name:
                    names.append(f"{body.module_name}_{kind}")
                    with open(f"{room}/src/{names[-1]}.rt", "w", encoding="utf-8") as it:
                        it.write(body.module(lines, given))
        with open(f"{room}/src/lib.rt", "w", encoding="utf-8") as it:
            it.write("\n".join(["//! Wrong bodies.", "#![tactic(auto)]", "", *[f"pub mod {it};" for it in names], ""]))
        return above.check(room, "bodies", libraries, [it for it in libraries if it in uses])


def faults(body, said):
    """Why a run doesn't say that the body is refused at its goal and its call alone is proved."""
    found = []
    if not re.search(rf"^fn bodies::{body.right}_right::{body.function}: proved$", said, re.MULTILINE):
        found.append("the call alone is not proved under its clauses")
    verdict = re.search(rf"^fn bodies::{body.module_name}_wrong::{body.function}: (.*)$", said, re.MULTILINE)
    if not verdict or verdict[1] == "proved":
        found.append("the wrong body is " + ("proved" if verdict else "not reached"))
    goals = re.findall(rf"^(?:note: |error: )?(?:\./)?src/{body.module_name}_wrong\.rt:\d+:\d+: .*?\(`([^`]+)`\)", said, re.MULTILINE)
    if verdict and body.said["goal"] not in goals:
        found.append(f"its file names the goal {body.said['goal']}, and the prover {', '.join(goals) or 'none'}")
    return found


# What a run could say of the body below, and whether it passes then.
MADE_UP = [
    ("fn bodies::a_wrong::f: not proved", "fn bodies::a_right::f: proved", "note: src/a_wrong.rt:3:1: is open (`returns`)", True),
    ("fn bodies::a_wrong::f: proved", "fn bodies::a_right::f: proved", "", False),
    ("fn bodies::a_wrong::f: not proved", "fn bodies::a_right::f: not proved", "note: src/a_wrong.rt:3:1: is open (`returns`)", False),
    ("fn bodies::a_wrong::f: not proved", "", "note: src/a_wrong.rt:3:1: is open (`returns`)", False),
    ("", "fn bodies::a_right::f: proved", "note: src/a_wrong.rt:3:1: is open (`returns`)", False),
    ("fn bodies::a_wrong::f: not proved", "fn bodies::a_right::f: proved", "note: src/a_wrong.rt:3:1: is open (`g-requires`)", False),
    ("fn bodies::a_wrong::f: not proved", "fn bodies::a_right::f: proved", "note: src/b_wrong.rt:3:1: is open (`returns`)", False),
    ("fn bodies::a_wrong::f: not proved", "fn bodies::a_right::f: proved", "error: src/a_wrong.rt:3:1: there is no `x`", False),
]


# What a log of `rt ci` could say, and whether the crate `low` is proved by it.
LOGS = [
    ("rt: low proved", True),
    ("rt: low is kept: an earlier run on this machine proved the same files over the same libraries", True),
    ("rt: low NOT PROVED: its library base failed", False),
    ("rt: low: its tests are proved\n3 passed, 1 failed", False),
    ("rt: lower proved\nrt: low: trying its must-fail edits (2)", None),
]


def tries():
    """How many of the runs that are made up are told apart rightly, and how many not."""
    body = Body.__new__(Body)
    body.module_name, body.right, body.function, body.said = "a", "a", "f", {"goal": "returns"}
    outcomes = []
    for *lines, passes in MADE_UP:
        outcomes.append((not faults(body, "\n".join(lines))) == passes)
        if not outcomes[-1]:
            print(f"bodies: the made-up run {lines} is to {'pass' if passes else 'fail'}")
    for log, wanted in LOGS:
        outcomes.append(outcome_of("low", log) is wanted)
        if not outcomes[-1]:
            print(f"bodies: the made-up log '{log}' tells {outcome_of('low', log)}")
    return sum(outcomes), len(outcomes) - sum(outcomes)


def outcome_of(crate, log):
    """What a log of `rt ci` says of a crate so far: True if it is proved, False if it never will be."""
    if re.search(rf"^rt: {crate} (proved|is kept: .*)$", log, re.MULTILINE):
        return True
    is_over = re.search(rf"^rt: {crate} NOT PROVED|^\d+ passed, \d+ failed", log, re.MULTILINE)
    return False if is_over else None


def is_proved(crate):
    """Whether a crate is proved, once the log that GATE_LOG names tells; without a log it is built already."""
    log = os.environ.get("GATE_LOG")
    while log:
        outcome = outcome_of(crate, text_of(log))
        if outcome is not None:
            return outcome
        time.sleep(1)
    return True


def tried(bodies, uses):
    """What the prover says of these bodies, once their crates are proved."""
    lacking = [it for it in {it.crate for it in bodies} if not is_proved(it)]
    return check(bodies, uses) if not lacking else f"{lacking[0]} is not proved"


def side_by_side():
    """How many crates to check at a time: SIDE_BY_SIDE, or one a processor, with 4.5 GB for each."""
    if "SIDE_BY_SIDE" in os.environ:
        return int(os.environ["SIDE_BY_SIDE"])
    room = int(re.search(r"^MemAvailable:\s+(\d+)", text_of("/proc/meminfo"), re.MULTILINE)[1]) // 4_500_000
    return max(1, min(len(os.sched_getaffinity(0)), room))


def readable(files):
    """The bodies of these files, and why others can't be tried: a file that lacks something, or a call that isn't there."""
    bodies, unread = [], []
    for file in files:
        try:
            body = Body(file)
            body.head()
            bodies.append(body)
        except (OSError, ValueError) as why:
            unread.append(f"bodies: {file}: {why}")
    return bodies, unread


def main():
    uses = listed()
    files = above.mutants(sys.argv[1:], of_one_function=False)
    bodies, unread = readable(files)
    groups = [[it for it in bodies if it.crate.startswith("jpath") == of_jpath] for of_jpath in (False, True)]
    passed, failed = tries()
    made_up = passed
    if unread:
        print("\n".join(unread))
        failed += len(unread)
    with concurrent.futures.ThreadPoolExecutor(side_by_side()) as pool:
        runs = [(group, pool.submit(tried, group, uses)) for group in groups if group]
        for group, run in runs:
            said, told = run.result(), []
            for body in group:
                why = faults(body, said)
                told += [f"bodies: {body.crate}/{body.name}: {it}" for it in why]
                passed, failed = passed + (not why), failed + bool(why)
            if told:
                print(said[-6000:])
            elif os.environ.get("BODIES_SAID"):
                print(said)
            print("\n".join([*told, f"bodies: {len(group)} tried"]))
    if not files:
        print("bodies: there are no wrong bodies")
        failed += 1
    print(f"mutants rejected at their goals: {passed - made_up} of {len(files)} under clauses")
    print(f"{passed} passed, {failed} failed")
    return 0 if failed == 0 else 1


if __name__ == "__main__":
    sys.exit(main())
