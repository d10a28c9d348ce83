"""A body that answers out of memory at once meets the contract of each call that can answer it, so tests have to catch it;
so does one that answers at once that a file can't be edited.

Each file of checks/memory names such a body, the line of a source before which it is put, and the tests that must fail
with it under 'fails:', and others that must pass under 'passes:'. All of them are put into one copy, where each is
asleep but in copies of the tests that its file names: a few lines of C read off the name of the test that runs which body
is awake. With none awake each of these tests passes. The tests are those of the crate of tests, and for files edited in
place checks/memory/in_place.rs, in a crate of its own. Words pick the files whose paths have them. Prints 'N passed, M
failed' last.
"""
import glob
import os
import re
import shutil
import subprocess
import sys
import tempfile

import above

AWAKE = """#include <stdio.h>
#include <string.h>

static unsigned awake = 0;

unsigned awake_body(void) { return awake; }

__attribute__((constructor)) static void read_name(int argc, char **argv) {
    for (int at = 1; at < argc; at++) {
        const char *name = strstr(argv[at], "with_body_");
        if (name) sscanf(name, "with_body_%u", &awake);
    }
}
"""
LIBRARY = """//! Which body is awake.
#![tactic(auto)]

unsafe extern "C" {
    safe fn awake_body() -> u32;
}

pub fn is_awake(number: u32) -> bool {
    awake_body() == number
}
"""

# The crate of tests that has a module, where it isn't `jsonpath_tests`, and what that crate stands on.
EDITS = "edit_tests"
CRATES = {"in_place": EDITS}
BELOW_EDITS = "jpath_files"


class Body:
    """A body as its file says it, and its number."""

    def __init__(self, file, number):
        self.name, self.number = os.path.basename(file)[:-5], number
        said = dict(re.findall(r"^(\w+): (.+)$", above.text_of(file), re.MULTILINE))
        self.crate, self.file, self.old, self.body = (said[it] for it in ("crate", "file", "old", "body"))
        self.fails, self.passes = said["fails"].split(), said.get("passes", "").split()

    def apply(self, room):
        path = f"{room}/crates/{self.crate}/{self.file}"
        text = above.text_of(path)
        if text.count(self.old) != 1:
            raise ValueError(f"memory: {self.name}: the old text isn't in its file once")
        write(path, text.replace(self.old, f"if awake::is_awake({self.number}) {{ {self.body} }} {self.old}"))

    def test(self, called):
        module, _, name = called.rpartition("::")
        return f"{module}::with_body_{self.number}_{name}"


def write(path, text):
    os.makedirs(os.path.dirname(path), exist_ok=True)
    with open(path, "w", encoding="utf-8") as it:
        it.write(text)


def crate_of(module):
    return CRATES.get(module, "jsonpath_tests")


def crates_of_tests(room, bodies):
    """Puts the tests that are named into their crates, each once more for each body that names it. Returns the crates."""
    named = [(body, test) for body in bodies for test in body.fails + body.passes]
    modules = sorted({test.rpartition("::")[0] for _, test in named})
    others = [it for it in modules if it not in CRATES]
    if others:
        subprocess.run([sys.executable, "checks/tests.py", room, *others], check=True)
    for module in (it for it in modules if it in CRATES):
        write(f"{room}/crates.txt", f"{above.text_of(f'{room}/crates.txt')}{EDITS}: {BELOW_EDITS}\n")
        write(f"{room}/crates/{EDITS}/src/lib.rt", f"//! Tests.\n#![tactic(auto)]\n\n#[cfg(test)]\nmod {module};\n")
        write(f"{room}/crates/{EDITS}/src/{module}.rt", above.text_of(f"checks/memory/{module}.rs"))
    for body, test in named:
        module, _, name = test.rpartition("::")
        path = f"{room}/crates/{crate_of(module)}/src/{module.replace('::', '/')}.rt"
        text = above.text_of(path)
        found = re.search(rf"^#\[test\]\nfn {name}(\(.*?^}}\n)", text, re.MULTILINE | re.DOTALL)
        if not found:
            raise ValueError(f"memory: {body.name}: there is no test {test}")
        write(path, f"{text}\n#[test]\nfn {body.test(test).rpartition('::')[2]}{found[1]}")
    return sorted({crate_of(it) for it in modules})


def outcomes(bodies):
    """How each test ended, and what was said."""
    with tempfile.TemporaryDirectory() as room:
        for name in ("HANDLES", "crates.txt"):
            shutil.copy(name, room)
        shutil.copytree("crates", f"{room}/crates", ignore=shutil.ignore_patterns("out", "must-fail"))
        subprocess.run(["git", "init", "-q", room], check=True)
        for body in bodies:
            body.apply(room)
        edited = "|".join({it.crate for it in bodies})
        listed = re.sub(rf"^({edited}):(.*)$", r"\1:\2 awake", above.text_of("crates.txt"), flags=re.MULTILINE)
        write(f"{room}/crates.txt", listed + "awake:\n")
        write(f"{room}/crates/awake/src/lib.rt", LIBRARY)
        write(f"{room}/crates/awake/c/awake.c", AWAKE)
        said = ""
        for crate in crates_of_tests(room, bodies):
            ran = subprocess.run(
                ["rt", "try", "--test", "--seconds", "600"],
                cwd=f"{room}/crates/{crate}",
                env={**os.environ, "RT_ALLOW_C": "awake"},
                stdin=subprocess.DEVNULL,
                capture_output=True,
                text=True,
            )
            said += ran.stdout + ran.stderr
    return dict(re.findall(r"^test ([\w:]+) \.\.\. (\w+)", said, re.MULTILINE)), said


def main():
    files = [it for it in sorted(glob.glob("checks/memory/*.edit")) if all(word in it for word in sys.argv[1:])]
    bodies = [Body(it, number) for number, it in enumerate(files, 1)]
    ended, said = outcomes(bodies)
    passed = 0
    for body in bodies:
        wanted = [(body.test(it), "FAILED") for it in body.fails] + [(body.test(it), "ok") for it in body.passes]
        wanted += [(it, "ok") for it in body.fails]
        wrong = [f"{test} is {ended.get(test, 'not run')}, and not {it}" for test, it in wanted if ended.get(test) != it]
        passed += not wrong
        print("\n".join([f"memory: {body.name}: {it}" for it in wrong] or [f"memory: {body.name}: the tests tell"]))
    if passed != len(bodies) or not bodies:
        print(said[-4000:])
    print(f"mutants rejected by tests: {passed} of {len(bodies)}")
    print(f"{passed} passed, {len(bodies) - passed + (not bodies)} failed")
    return 0 if bodies and passed == len(bodies) else 1


if __name__ == "__main__":
    sys.exit(main())
