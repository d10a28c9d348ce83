"""Puts tests into the crate `jsonpath_tests` of a copy of the repository: the files of its folder tests/ as modules, or those that
are named, as library::uses; and those that these ask for. Where none is named, all of them.

Called with the folder of the copy, and perhaps with modules.
"""
import glob
import os
import re
import sys


def read(file):
    with open(file, encoding="utf-8") as it:
        return it.read()


def write(file, text):
    os.makedirs(os.path.dirname(file), exist_ok=True)
    with open(file, "w", encoding="utf-8") as it:
        it.write(text)


def modules_of(folder, ending):
    """The files below a folder, by the names of their modules."""
    files = sorted(glob.glob(f"{folder}/**/*{ending}", recursive=True))
    return {os.path.relpath(it, folder)[: -len(ending)].replace("/", "::"): it for it in files}


def asked_for(wanted, files):
    """The modules and those that they name, with their texts."""
    kept, left = {}, list(wanted)
    while left:
        module = left.pop()
        if module not in kept:
            kept[module] = read(files[module])
            named = re.findall(r"\bcrate::([\w:]+)", kept[module])
            left += [it for it in files if any(f"{name}::".startswith(f"{it}::") for name in named)]
    return kept


def main():
    crate = f"{sys.argv[1]}/crates/jsonpath_tests"
    tests = modules_of(f"{crate}/tests", ".rs")
    kept = asked_for(sys.argv[2:] or tests, tests)
    for module, text in kept.items():
        write(f"{crate}/src/{module.replace('::', '/')}.rt", text)
    below = {}
    for module in kept:
        while "::" in module:
            folder, _, name = module.rpartition("::")
            below.setdefault(folder, set()).add(name)
            module = folder
    for folder, names in below.items():
        mods = "".join(f"pub(crate) mod {it};\n" for it in sorted(names))
        write(f"{crate}/src/{folder.replace('::', '/')}.rt", mods)
    mods = sorted({it.split("::")[0] for it in kept})
    lib = f"{crate}/src/lib.rt"
    write(lib, read(lib) + "\n" + "".join(f"#[cfg(test)]\nmod {it};\n" for it in mods))


main()
