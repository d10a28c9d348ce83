#!/usr/bin/env bash
# Compares what documents and comments show with what is tried. Each example at a public item runs as a test, which this
# script makes of it and 'rt try' runs, or stands word for word in a test: of jsonpath_tests, or of checks/samples, which runs
# beside, where examples of a type go on from one another. (Its files are named .rs, since the gate wants each .rt file in
# a crate.) Each sample of a module's comment, and each function of docs/LIBRARY.md, stands so; its program, which is README's,
# is run. Each row of a path in README stands in docs/PATHS.md, whose rows tests/rows replays, as those of docs/FROM-OTHERS.md. Each item that a library or jsonpath_run gives out has an example:
# each function, type and trait, each method of a type's own, and each law. Each call of the table of calls of docs/LIBRARY.md is
# one that jsonpath_lib gives out, or a method of the types above it. Last line: 'N passed, M failed'.
set -u
cd "$(dirname "${BASH_SOURCE[0]}")/.." || exit 1
exec python3 - << 'TEXT'
import glob, os, re, shutil, subprocess, sys, tempfile

passed, failed = 0, 0

def judge(holds, what):
    global passed, failed
    passed, failed = passed + bool(holds), failed + (not holds)
    if not holds:
        print(f"samples: {what}")

def lines_of(file):
    with open(file, encoding="utf-8") as it:
        return it.read().split("\n")

# Each test's lines, without what stands before and behind them; jsonpath_uses calls some laws.
TESTED = ["crates/jsonpath_tests/tests/**/*.rs", "crates/jsonpath_uses/src/*.rt", "checks/samples/*.rs"]
tests = ["\n" + "\n".join(map(str.strip, lines_of(it))) + "\n" for folder in TESTED for it in glob.glob(folder, recursive=True)]

def is_tested(sample):
    return any("\n" + "\n".join(map(str.strip, sample)) + "\n" in it for it in tests)

def samples_of(lines):
    """The fenced samples of a text: the line at which each begins, from 1, its kind, and its lines."""
    found, sample = [], None
    for number, line in enumerate(lines, 1):
        if line.strip().startswith("```"):
            if sample is None:
                sample = number, line.strip()[3:], []
            else:
                found.append(sample)
                sample = None
        elif sample is not None:
            sample[2].append(line)
    return found

# The names that each library gives out, the highest first: `jsonpath_lib` passes on most of those below it.
LIBRARIES = ["jsonpath_lib", "jsonpath_select", "jsonpath_nodes", "jsonpath_paths", "jsonpath_streams", "jsonpath_run"]

def given_out(library):
    text = "\n".join(lines_of(f"crates/{library}/src/lib.rt"))
    lists = re.findall(r"^pub use [\w:]*?(?:\{([^}]*)\}|(\w+));", text, re.MULTILINE)
    return {name.strip() for it in lists for name in "".join(it).split(",") if name.strip()}

def public_modules(library):
    """Those whose items are named behind them, as `laws::longest_front`."""
    return set(re.findall(r"^pub mod (\w+);", "\n".join(lines_of(f"crates/{library}/src/lib.rt")), re.MULTILINE))

OTHERS = {"serde_json": ["Map", "Number", "Value"], "std::alloc": ["Global"], "std::rc": ["Rc"], "std::test": ["Fail"]}

def imports_of(samples):
    """The lines that import what the samples name, and the trait whose methods they call."""
    text = "\n".join(samples)
    words, modules = {"AnyPath", *re.findall(r"\w+", text)}, set(re.findall(r"(\w+)::", text))
    taken, lines = set(), []
    for library, names in [*((it, given_out(it)) for it in LIBRARIES), *OTHERS.items()]:
        named = words.intersection(names) | (modules.intersection(public_modules(library)) if library in LIBRARIES else set())
        wanted = sorted(named - taken)
        taken.update(wanted)
        if wanted or library == "std::test":
            lines.append(f"use {library}::{{{', '.join(sorted({*wanted, *(['Fail'] if library == 'std::test' else [])}))}}};")
    return lines

def is_program(sample):
    return any(it.startswith("fn main(") for it in sample)

def outcomes(samples, programs):
    """Runs each sample and each program as a test: the samples that end well, by their number, and what was said."""
    with tempfile.TemporaryDirectory() as work:
        for name in ["HANDLES", "crates.txt", "crates"]:
            copy = shutil.copytree if os.path.isdir(name) else shutil.copy
            copy(name, f"{work}/{name}", **({"ignore": shutil.ignore_patterns("out", "must-fail")} if os.path.isdir(name) else {}))
        subprocess.run(["git", "init", "-q", work], check=True)
        with open(f"{work}/crates.txt", "a", encoding="utf-8") as it:
            it.write(f"jsonpath_samples: {' '.join(LIBRARIES)} serde_json\n")
        os.makedirs(f"{work}/crates/jsonpath_samples/src")
        text = ["//! The examples of comments.", "#![tactic(auto)]", "", *imports_of(["\n".join(it) for it in samples])]
        # Those of types whose examples go on from one another stand together, as tests of their own.
        for file in [*sorted(glob.glob("checks/samples/*.rs")), "crates/jsonpath_tests/tests/paths/tree/token_list.rs"]:
            module = os.path.basename(file)[:-3]
            shutil.copy(file, f"{work}/crates/jsonpath_samples/src/{module}.rt")
            text += ["#[cfg(test)]", f"mod {module};"]
        for number, program in enumerate(programs):
            with open(f"{work}/crates/jsonpath_samples/src/program_{number}.rt", "w", encoding="utf-8") as it:
                it.write("\n".join(["//! A program.", *(line.replace("fn main(", "pub fn main(") for line in program)]) + "\n")
            text += ["#[cfg(test)]", f"mod program_{number};", "", "#[test]", f"fn runs_program_{number}(rt: HostRuntime) -> Result<(), Fail> {{"]
            text += [f"    program_{number}::main(rt);", "    Ok(())", "}"]
        for number, sample in enumerate(samples):
            text += ["", "#[test]", f"fn sample_{number}(rt: HostRuntime) -> Result<(), Fail> {{", "    let alloc = rt.alloc();"]
            text += [f"    {it}" for it in sample] + ["    Ok(())", "}"]
        with open(f"{work}/crates/jsonpath_samples/src/lib.rt", "w", encoding="utf-8") as it:
            it.write("\n".join(text) + "\n")
        ran = subprocess.run(["rt", "try", "--test", "--seconds", "600"], cwd=f"{work}/crates/jsonpath_samples", capture_output=True, text=True)
    outcomes = re.findall(r"^test ([\w:]+) \.\.\. (\w+)$", ran.stdout, re.MULTILINE)
    alone = {int(name[7:]) for name, outcome in outcomes if name.startswith("sample_") and outcome == "ok"}
    return alone, [it for it in outcomes if "::" in it[0]], ran.stdout + ran.stderr

# What comments show, file by file. A comment's lines keep their place; every other line is left empty.
shown, run = 0, []
for file in sorted(glob.glob("crates/*/src/**/*.rt", recursive=True)):
    for kind in ["/", "!"]:
        comments = [re.match(rf"\s*//{kind} ?(.*)$", it) for it in lines_of(file)]
        for number, _, sample in samples_of([it[1] if it else "" for it in comments]):
            shown += 1
            if is_tested(sample) or kind == "!":
                judge(sample and is_tested(sample), f"{file}:{number}: the sample stands in no test")
            else:
                # The example of a law calls that of its own crate, which `jsonpath_lib` need not give out.
                own = f"{file.split('/')[1]}::laws::" if file.endswith("/laws.rt") else "laws::"
                run.append((f"{file}:{number}", [re.sub(r"\blaws::", own, it) for it in sample]))
PAGES = ["README.md", "docs/LIBRARY.md"]
shown_programs = [sample for page in PAGES for _, kind, sample in samples_of(lines_of(page)) if kind == "rust" and is_program(sample)]
passed_alone, together, said = outcomes([sample for _, sample in run], shown_programs)
judge(len(shown_programs) == 2, f"the pages show {len(shown_programs)} programs")
for number, program in enumerate(shown_programs):
    judge(re.search(rf"^test runs_program_{number} \.\.\. ok$", said, re.MULTILINE), f"program {number} of the pages does not run")
    for output in re.findall(r"// (\[.*)$", "\n".join(program), re.MULTILINE):
        judge(said.count(f"{output}\n") >= len(shown_programs), f"program {number} of the pages does not print {output}")
for name, outcome in together:
    judge(outcome == "ok", f"checks/samples, {name}: {outcome}")
judge(len(together) >= 20, f"checks/samples has {len(together)} tests alone")
for number, (place, _) in enumerate(run):
    judge(number in passed_alone, f"{place}: the example, sample_{number}, does not run as a test")
if len(passed_alone) < len(run) or any(it[1] != "ok" for it in together):
    print(said[-4000:])
judge(shown >= 24, f"comments show {shown} samples alone")

# Each function, type, trait and method that a library gives out has an example, and so has each item of a public module,
# as each law. A trait's provided methods are those of each type that has the trait.
def has_example(lines, number):
    """Whether the comment above the line has a sample."""
    while number > 0 and lines[number - 1].strip().startswith("#["):
        number -= 1
    comment = []
    while number > 0 and lines[number - 1].strip().startswith("///"):
        number -= 1
        comment.append(lines[number])
    return any("```" in it for it in comment)

items, functions, methods, other_names, traits = 0, set(), set(), {}, set()
for library in LIBRARIES:
    names, modules = given_out(library), {f"crates/{library}/src/{it}.rt" for it in public_modules(library)}
    for file in sorted(glob.glob(f"crates/{library}/src/**/*.rt", recursive=True)):
        lines, is_given, owners, word = lines_of(file), False, [], "pub "
        for number, line in enumerate(lines):
            if line.startswith(("impl", "pub trait ")):
                owners, word = re.findall(r"\w+", re.sub("^impl<[^>]*>", "", line)), "pub " if line.startswith("impl") else ""
                is_given = bool(names.intersection(owners))
                traits.update((it, found[1]) for found in [re.search(r"\b(\w+) for ", line)] if found for it in owners)
            function = re.match(rf"( *){word}fn (\w+)", line) or re.match(r"()pub fn (\w+)", line)
            if function and function[1]:
                methods.update((it, function[2]) for it in owners)
            elif function:
                functions.add(function[2])
            other_name = re.match(r"pub type (\w+)(?:<[^=]*>)? = (\w+)", line)
            if other_name:
                other_names[other_name[1]] = other_name[2]
            item = re.match(r"( *)pub (?:fn|struct|enum|type|trait) (\w+)", line)
            if item and (is_given if item[1] else item[2] in names or file in modules):
                items += 1
                judge(has_example(lines, number), f"{file}:{number + 1}: there is no example at {item[2]}")
judge(items >= 200, f"the libraries give out {items} items alone")

# The page of the library: each sample stands in a test, and each function in both, with either error type.
programs = ["\n" + "\n".join(map(str.strip, lines_of(f"crates/jsonpath_tests/tests/library/{it}.rs"))) + "\n" for it in ("guide", "guide_anyhow")]
shown_functions = 0
for number, kind, sample in samples_of(lines_of("docs/LIBRARY.md")):
    if kind != "rust" or is_program(sample):
        continue
    lines = "\n" + "\n".join(map(str.strip, sample)) + "\n"
    is_function = any(it.startswith("fn ") for it in sample)
    shown_functions += is_function
    judge((all if is_function else any)(lines in it for it in programs), f"docs/LIBRARY.md:{number}: the sample stands in no test")
judge(shown_functions >= 8, f"docs/LIBRARY.md shows {shown_functions} programs alone")

def kinds_of(kind):
    """A type, and the traits that it has."""
    return [kind, *(trait for it, trait in traits if it == kind)]

# The table of calls, and README's rows of paths.
def faults_in_calls(lines):
    """What is wrong in the table of calls: cells without a call that no remark below explains, and calls that are not there."""
    faults, seen, given, head = [], 0, given_out("jsonpath_lib") & functions, []
    for line in lines:
        cells = [it.strip() for it in line.split("|")[1:-1]] if line.startswith("|") else []
        if cells[:1] == ["Wanted"]:
            head = [["PathSelector"] if it == "`selector(&value)`" else re.findall(r"`(\w+)`", it) for it in cells]
        elif not cells or cells[0].startswith("-"):
            head = head if cells else []
        elif head:
            for cell, types in list(zip(cells, head, strict=True))[1:]:
                calls = re.findall(r"`(\.?)(\w+)(?:::<\w+>)?`", cell)
                seen += len(calls)
                if not calls and (not cell or not any(it.startswith(f"- {cell}:") for it in lines)):
                    faults.append(f"{cells[0]}: {cell or 'an empty cell'}")
                for dot, name in calls:
                    owners = [it for it in types if any((kind, name) in methods for kind in kinds_of(other_names.get(it, it)))]
                    has_others = any(not it[0] for it in calls)
                    if not (owners and (has_others or owners == types) if dot else name in given):
                        faults.append(f"{cells[0]}: {dot}{name}")
    return faults, seen

faults, seen = faults_in_calls(lines_of("docs/LIBRARY.md"))
judge(not faults, f"docs/LIBRARY.md, the table of calls: {'; '.join(faults)}")
judge(seen >= 40, f"docs/LIBRARY.md has {seen} calls in its table alone")
made_up = ["| Wanted | path text | `PathCompiled`, `Node` | `PathSelector` | `SelectorMut` |", "|---|---|---|---|---|",
    "| any | `select` | `.exists` | *held* | `.select_as` |", "| set | `is_path` | `.set` | *lost* | |", "", "- *held*: it is.", "| set | `no_call` |"]
judge(faults_in_calls(made_up) == (["set: is_path", "set: .set", "set: *lost*", "set: an empty cell"], 5), "the rule on calls does not tell its own cases apart")

def rows_of(file):
    """The first three cells of each row below a head of a path, a document and an answer."""
    rows, is_head, cells = [], False, []
    for line in lines_of(file):
        cells = [it.strip() for it in re.split(r"(?<!\\)\|", line)[1:-1]] if line.startswith("|") else []
        if not cells:
            is_head = False
        elif cells[:3] in (["Path", "Document", "Answer"], ["Words", "Document", "Answer"]):
            is_head = True
        elif is_head and not line.startswith("|-"):
            rows.append(tuple(cells[:3]))
    return rows

for page in ["PATHS.md", "FROM-OTHERS.md"]:
    made = subprocess.run([sys.executable, "scripts/page_rows.py", f"docs/{page}"], capture_output=True, text=True)
    kept = lines_of(f"crates/jsonpath_tests/tests/rows/{page[:-3]}.jsonl")
    judge(made.returncode == 0 and len(kept) > 60 and made.stdout.split("\n") == kept, f"docs/{page} hasn't the rows that tests/rows replays: {made.stderr[-300:]}")
replayed = set(rows_of("docs/PATHS.md"))
readme = rows_of("README.md")
for row in readme:
    judge(row in replayed, f"README.md: docs/PATHS.md has no row {' '.join(row)}")
judge(len(readme) >= 8, f"README.md has {len(readme)} rows of paths alone")
for number, kind, sample in samples_of(lines_of("README.md")):
    judge(kind != "rust" or is_program(sample), f"README.md:{number}: the sample is no program")

print(f"{passed} passed, {failed} failed")
sys.exit(failed != 0)
TEXT
