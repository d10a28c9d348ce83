"""Has the prover check a crate that stands above the libraries, over these as the gate left them built."""
import glob
import os
import re
import subprocess


def text_of(file):
    with open(file, encoding="utf-8") as it:
        return it.read()


def mutants(words, of_one_function):
    """The files crates/NAME/must-fail/*.md whose paths have the words: edits of one function, which name it, or bodies."""
    files = [it for it in sorted(glob.glob("crates/*/must-fail/*.md")) if all(word in it for word in words)]
    return [it for it in files if bool(re.search("^function: ", text_of(it), re.MULTILINE)) == of_one_function]


def listed():
    """The crates of the repository, and what each uses."""
    found = {}
    for line in text_of("crates.txt").split("\n"):
        name, colon, rest = line.partition(":")
        if colon and not line.startswith("#"):
            found[name.split()[0]] = rest.split()
    return found


def below(crate, uses):
    """The crates that a crate uses, and those that these use, the highest first."""
    found = []
    for name in uses.get(crate, []):
        found += [name, *below(name, uses)]
    last = {name: at for at, name in enumerate(found)}
    return sorted(last, key=last.get)


def check(room, name, libraries, own, flags=()):
    """What the prover says of the crate of this name in the folder. The libraries are those that it uses and those below
    them; `own` are the repository's, the others the kit's. The flags are the prover's."""
    kit = os.path.dirname(subprocess.run(["rt", "doc"], capture_output=True, text=True, check=True).stdout.strip())
    command = [f"{kit}/bin/rattle", "check", "--crate-name", name, "src/lib.rt", "-L", f"dependency={kit}/rlibs"]
    for it in libraries:
        if it in own:
            command += ["-L", f"dependency={os.path.abspath(f'crates/{it}/out/rlib')}"]
    for it in [*libraries, "std"]:
        folder = f"crates/{it}/out/rlib" if it in own else f"{kit}/rlibs"
        command += ["--extern", f"{it}={os.path.abspath(folder)}/{it}.rlib"]
    command += ["--antt-project", f"{kit}/rattle/logic/antt-project.json", "--logic-built", f"{kit}/logic_built", "--jobs", "1", *flags]
    ran = subprocess.run(command, cwd=room, capture_output=True, text=True)
    return ran.stdout + ran.stderr
