#!/usr/bin/env bash
# Each command that README shows with its output gives that output, by the programs as `rt ci` built them: in a folder of their own,
# one after the other, with `jpath` on the PATH and nothing else. `./run --unproved` stands there for the proved program; what it
# does by itself is tried in `run.sh`. Last line: 'N passed, M failed'.
set -u
cd "$(dirname "${BASH_SOURCE[0]}")/.." || exit 1
exec python3 - << 'TEXT'
import os, re, shutil, subprocess, sys, tempfile

here = os.getcwd()
with open("README.md", encoding="utf-8") as it:
    samples = re.findall(r"^```console\n(.*?)^```$", it.read(), re.MULTILINE | re.DOTALL)
shown = [it for sample in samples for it in re.findall(r"^\$ (.*)\n((?:(?!\$ ).*\n)*)", sample, re.MULTILINE)]
failed = 0
# The first start of a program that is built looks for the sources that it stands on, and keeps their names.
subprocess.run(["./run", "check", "$"], capture_output=True)
with tempfile.TemporaryDirectory() as work:
    os.mkdir(f"{work}/bin")
    os.symlink(f"{here}/crates/jpath/out/jpath", f"{work}/bin/jpath")
    for command, output in shown:
        proved = command.replace("./run --unproved ", f"'{here}/run' ")
        # From then on nothing but the program is wanted: no rt, and no tools.
        ran = subprocess.run([shutil.which("sh"), "-c", proved], cwd=work, env={"PATH": f"{work}/bin"}, capture_output=True, text=True)
        if ran.stdout != output:
            print(f"commands: '{command}' gives '{ran.stdout}{ran.stderr}'")
            failed += 1
if len(shown) < 3:
    print(f"commands: README.md shows {len(shown)} commands alone")
    failed += 1
print(f"{max(len(shown) - failed, 0)} passed, {failed} failed")
sys.exit(failed != 0)
TEXT
