#!/usr/bin/env bash
# Runs the built jpath as a user does: the rows of docs/JPATH.md, words, files, refusals, edits in place; and compares
# the man page with the options. Last line: 'N passed, M failed'.
set -u
here=$(cd "$(dirname "${BASH_SOURCE[0]}")/.." && pwd)
work=$(mktemp -d) || exit 1
chmod 755 "$work"
trap 'rm -rf "$work"' EXIT
mkdir "$work/bin" "$work/rows" "$work/files"
"$here/run" --build jpath --check '$' > "$work/said" 2>&1 || {
    cat "$work/said"
    exit 1
}
cp "$here/crates/jpath/out/jpath" "$work/bin/jpath"
PATH=$work/bin:$PATH exec python3 - "$here" "$work" << 'TEXT'
import os, pty, re, select, shlex, signal, stat, subprocess, sys

here, work = sys.argv[1:]
passed, failed = 0, 0

def judge(holds, what):
    global passed, failed
    passed, failed = passed + bool(holds), failed + (not holds)
    if not holds:
        print(f"jpath: {what}")

def lines_of(name):
    with open(f"{here}/{name}", encoding="utf-8") as it:
        return it.read().split("\n")

def shell(command, folder, given=None):
    done = subprocess.run(["bash", "-c", command], cwd=folder, input=given, stdin=subprocess.DEVNULL if given is None else None,
                          capture_output=True, timeout=60)
    return done.returncode, done.stdout.decode(), done.stderr.decode()

# ---- the rows of docs/JPATH.md, in a folder with the files that it shows

page = lines_of("docs/JPATH.md")
for line in page:
    named = re.fullmatch(r"\| `([a-z]+\.json)` \| (.*) \|", line)
    if named:
        with open(f"{work}/rows/{named[1]}", "w", encoding="utf-8") as it:
            it.write("".join(part + "\n" for part in re.findall(r"`([^`]*)`", named[2])))

files = {name: open(f"{work}/rows/{name}").read() for name in os.listdir(f"{work}/rows")}
rows = 0
for line in page:
    cells = re.split(r"(?<!\\)\|", line)
    if len(cells) != 6 or not cells[3].strip().startswith("`") or "jpath" not in cells[3]:
        continue
    rows += 1
    command = cells[3].strip()[1:-1].replace("\\|", "|")
    wanted = "".join(part + "\n" for part in re.findall(r"`([^`]*)`", cells[4].replace("\\|", "|")))
    for name, text in files.items():
        with open(f"{work}/rows/{name}", "w") as it:
            it.write(text)
    status, output, error = shell(command, f"{work}/rows")
    judge(output == wanted and error == "", f"row '{cells[1].strip()}': '{output}', error '{error}'")
judge(rows >= 40, f"docs/JPATH.md has {rows} rows")

# ---- words, statuses and refusals: wants(command, status, output, error), where '*' in an error stands for anything

folder = f"{work}/files"
with open(f"{folder}/a.json", "w") as it:
    it.write('{"a":1}\n')
with open(f"{folder}/bad.json", "w") as it:
    it.write('{"a":1}\n{"a":2}\n  {"a": tru}\n{"a":3}\n')
with open(f"{folder}/big.json", "w") as it:
    it.write('{"a":' + "[" * 200 + "]" * 200 + "}")

def fits(said, pattern):
    return re.fullmatch(".*".join(map(re.escape, pattern.split("*"))), said, re.S)

def wants(command, status, output, error="", given=None):
    got = shell(command, folder, given)
    judge(got[0] == status and got[1] == output and fits(got[2], error), f"'{command}' gave {got}")

wants("jpath '$.a' a.json", 0, "1\n")

# a text without its quotes: the hint names the option that takes it so, where there is one
unquoted = "jpath: {0} wants JSON, and this is none: Ada\nhint: a text has quotes here, as '\"Ada\"'{1}\n"
wants("jpath --set '$.a' Ada a.json", 2, "", unquoted.format("--set", "; --set-text takes it without"))
wants("jpath --add '$.z' Ada a.json", 2, "", unquoted.format("--add", "; --add-text takes it without"))
wants("jpath --append '$.a' Ada a.json", 2, "", unquoted.format("--append", ""))

# a name that comes again stands once, at its first place, with its last value; an edit leaves it as it is

again = b'{"a":1,"b":[{"c":1,"c":2}],"a":3}'
wants("jpath '$'", 0, '{"a":3,"b":[{"c":2}]}\n', given=again)
wants("jpath '$.a'", 0, "3\n", given=again)
wants("jpath '$.b'", 0, '[{"c":2}]\n', given=again)
wants("jpath -a '$.b[*]'", 0, '[{"c":2}]\n', given=again)
wants("jpath -p '$.b[*]'", 0, '{\n  "c": 2\n}\n', given=again)
wants("jpath -a -p '$.b[*]'", 0, '[\n  {\n    "c": 2\n  }\n]\n', given=again)
wants("jpath -L '$.b[0]'", 0, '$[\'b\'][0]\t{"c":2}\n', given=again)
wants("jpath --rows '$' -e '$.b' --tsv", 0, '[{"c":2}]\n', given=again)
wants("jpath --set '$.b' 5", 0, '{"a":1,"b":5,"a":3}', given=again)
many = "{" + ",".join(f'"n{number}":{number}' for number in range(40)) + ',"n7":0,"n0":[1]}'
once = "{" + ",".join(f'"n{number}":' + {0: "[1]", 7: "0"}.get(number, str(number)) for number in range(40)) + "}"
wants("jpath '$'", 0, once + "\n", given=many.encode())
wants("jpath '$'", 0, many[: many.index(',"n7":0')] + "}\n", given=(many[: many.index(',"n7":0')] + "}").encode())
wants("jpath '$.b' a.json", 1, "")
wants("jpath '$.a' < a.json", 0, "1\n")
wants("jpath '$.a' - a.json < a.json", 0, "1\n1\n")
wants("jpath '$.a' none.json a.json", 4, "1\n", "jpath: none.json: *\n")
wants("jpath '$.a' .", 4, "", "jpath: .: *\n")
wants("jpath '$.a' bad.json a.json", 3, "1\n2\n", "jpath: bad.json:3:12: the rest of true, false or null is wanted\n")
wants("jpath -k '$.a' bad.json a.json", 3, "1\n2\n3\n1\n", "jpath: bad.json:3:12: the rest of true, false or null is wanted\n")
wants("jpath -c '$.a' bad.json", 3, "2\n", "jpath: bad.json:3:*\n")
wants("jpath '$' ", 3, "", "jpath: -:1:6: the document ends too early\n", b'{"a":')
wants("jpath '$' ", 3, "1\n", "jpath: -:2:2: a blank is wanted behind the document\n", b"1\n1true\n")
wants("jpath '$' ", 3, "", "jpath: -:1:2: the text is no UTF-8\n", b'"\xff"')
wants("jpath '$' big.json", 3, "", "jpath: big.json:1:132: it nests deeper than 127 levels\n")
for text, place, why in [(b"[1 2]", "1:4", "a comma or ] is wanted"), (b'{"a":1 "b"}', "1:8", "a comma or } is wanted"), (b'\n[1,\n]', "3:1", "a comma stands before the bracket"),
                         (b'{"a":1,}', "1:8", "a comma stands before the bracket"), (b"[/* */1]", "1:2", "JSON has no comments"), (b"[NaN]", "1:2", "JSON has no NaN and no Infinity"),
                         (b"[nan]", "1:3", "the rest of true, false or null is wanted"), (b'["\\ud800"]', "1:9", "half of a surrogate pair stands alone"), (b'["\\udc00"]', "1:6", "half of a surrogate pair stands alone"),
                         (b'["\\x"]', "1:4", "a text has no such escape"), (b'["\t"]', "1:3", "a text has this control character by an escape alone"), (b"{1:2}", "1:2", "a name in quotes or } is wanted"),
                         (b'{"a" 1}', "1:6", "a colon is wanted"), (b"[1.]", "1:4", "a digit is wanted"), (b"[01]", "1:3", "a comma or ] is wanted"), (b"[]]", "1:3", "a value is wanted"),
                         (b'["\xc3\x28"]', "1:4", "the text is no UTF-8"), (b'["\\u00g0"]', "1:7", "a hexadecimal digit is wanted"), (b"[1e]", "1:4", "a digit or a sign is wanted")]:
    wants("jpath -q '$.none'", 3, "", f"jpath: -:{place}: {why}\n", text)

# an error is reported where it is, at once; with `-k` the stream goes on after the line on which that document begins
wants("timeout 10 jpath '$.a' < <(exec 2> /dev/null; printf '{\"a\":1}\\n{\"a\":{\\n{\"a\":2}\\n'; sleep 20)", 3, "1\n", "jpath: -:3:1: a name in quotes or } is wanted\n")
for text, found, place in [(b'garbage {"a":1}\n{"a":2}', "2\n", "1:1"), (b'{"a":1} garbage {"a":2}\n\n {"a":3}', "1\n3\n", "1:9"), (b'{"a":{\n{"a":1}\n', "1\n", "2:1"),
                           (b'{"a":[1,\n{"a":1}\n{"a":2}', "1\n2\n", "3:1"), (b'\n {"a"\n:1 2}{"a":3}\n', "", "3:4"), (b'{"a":1}\n' + b"[" * 200000 + b'\n{"a":2}\n', "1\n2\n", "2:128")]:
    wants("jpath -k '$.a'", 3, found, f"jpath: -:{place}: *\n", text)
wants("jpath '$' ", 1, "", "", b"")
wants("jpath '$' ", 0, '1\n2\n"a"\n"b"\n{}\n[]\n3\n', "", b'1 2"a""b"{}[]3')
wants("jpath '$' ", 0, "12\n[3]\ntrue\nfalse\n1\n\"a\"\n", "", b'12[3]truefalse 1"a"')
wants("jpath -H '$.a' < a.json", 0, "-:1\n")
wants("jpath -q '$.a' a.json none.json", 0, "")
wants("jpath -a '$.b' a.json", 1, "[]\n")
wants("jpath -a -p '$.a' a.json", 0, "[\n  1\n]\n")
wants("jpath -a -e '$.a' -e '$' a.json", 0, '[1,{"a":1}]\n')
wants("jpath -r '$[*]'", 0, 'x\n{"y":"z"}\n', "", b'["x",{"y":"z"}]')
wants("jpath -l '$..*'", 0, "$['it\\\\'s \\\\\\\\']\n$['it\\\\'s \\\\\\\\'][0]\n".replace("\\\\", "\\"), "", b'{"it\'s \\\\":[1]}')
wants("jpath '$'", 0, '{"b":"\\u0001\\n\\"\\\\/é","a":1,"c":2}\n', "", '{ "b" : "\\u0001\\n\\"\\\\\\/\\u00e9", "a":1 , "c":2 }'.encode())
wants("jpath '$.b'", 0, "2\n", "", b'{"b":1,"b":2}')
wants("jpath --check '$.a' none.json", 0, "")
wants("jpath --check '$.a['", 2, "", "*")
wants("yes '{\"a\":1}' | jpath '$.a' | head -n 2; echo ${PIPESTATUS[1]}", 0, "1\n1\n0\n")
wants("jpath '$.a' a.json > /dev/full", 4, "", "jpath: standard output: *\n")
wants("(printf '{\"a\":1}\\n'; sleep 2; printf '{\"a\":2}\\n') | jpath '$.a' | (read -t 1 first; echo \"$first\"; cat)", 0, "1\n2\n")

# what is between values
three = b'["x",[1,{"y":2}],"z"]'
wants("jpath -j -r '$[0,2]'", 0, "xz", "", three)
wants("jpath -j '$[*]'", 0, '"x"[1,{"y":2}]"z"', "", three)
wants("jpath -0 -r '$[*]'", 0, 'x\0[1,{"y":2}]\0z\0', "", three)
wants("jpath -0 -L '$[2]'", 0, '$[2]\t"z"\0', "", three)
wants("jpath -0 -p '$[1]'", 0, '[\n  1,\n  {\n    "y": 2\n  }\n]\0', "", three)
wants("jpath -0 -a '$[0]'", 0, '["x"]\0', "", three)
wants("jpath -0 -c '$[*]'", 0, "3\0", "", three)
wants("jpath --seq '$[0,1]'", 0, '\x1e"x"\n\x1e[1,{"y":2}]\n', "", three)
wants("jpath --seq -a '$[0]'", 0, '\x1e["x"]\n', "", three)
for words in ["-j -0", "-j --seq", "-0 --seq", "-j -c", "-0 -q", "--seq -r", "--seq -H", "--seq -l", "-0 --rows '$' -e '$' --csv", "-j --null '$.a'"]:
    wants(f"jpath {words} '$' a.json", 2, "", "jpath: *")

# layouts, and members in the order of their names
mixed = b'{"b":[1,{"d":"x","c":{}}],"a":[],"\xc3\xa9":null,"b":2,"Z":true}'
wants("jpath --indent 1 '$'", 0, '{\n "b": 2,\n "a": [],\n "é": null,\n "Z": true\n}\n', given=mixed)
wants("jpath --tab '$.b'", 0, '[\n\t1,\n\t{\n\t\t"d": "x",\n\t\t"c": {}\n\t}\n]\n', given=mixed.replace(b',"b":2', b""))
wants("jpath -p --indent=8 '$.b'", 0, '[\n        1,\n        {\n                "d": "x",\n                "c": {}\n        }\n]\n', given=mixed.replace(b',"b":2', b""))
wants("jpath -S '$'", 0, '{"Z":true,"a":[],"b":2,"é":null}\n', given=mixed)
wants("jpath -S '$.b'", 0, '[1,{"c":{},"d":"x"}]\n', given=mixed.replace(b',"b":2', b""))
wants("jpath -S -a '$' ", 0, '[{"Z":true,"a":[],"b":2,"é":null}]\n', given=mixed)
wants("jpath -S -a --tab -e '$.b[1]' -e '$.a'", 0, '[\n\t{\n\t\t"c": {},\n\t\t"d": "x"\n\t},\n\t[]\n]\n', given=mixed.replace(b',"b":2', b""))
wants("jpath -S -L '$.b[1]'", 0, "$['b'][1]\t{\"c\":{},\"d\":\"x\"}\n", given=mixed.replace(b',"b":2', b""))
wants("jpath -C always -S '$.b[1].c'", 0, "{}\n", given=mixed.replace(b',"b":2', b""))
wants("jpath -S -p --null '$.b'", 0, '{\n  "Z": true,\n  "a": [],\n  "b": null,\n  "é": null\n}\n', given=mixed)
wants("jpath --tab --remove '$.*'", 0, "{}\n", given=mixed)
wants("jpath -S --null '$.a' a.json", 2, "", "jpath: *beside -p, --indent or --tab*")
wants("jpath --help | grep -cF '(@.name == {x})]'", 0, "1\n")
for words in ["--indent 2 --tab '$'", "-S --null '$.a'", "-S -c '$'", "--tab -l '$'", "--indent 3 -q '$'", "-S --rows '$' -e '$' --csv"]:
    wants(f"jpath {words} a.json", 2, "", "jpath: *")
for words in ["--indent 0 '$'", "--indent 9 '$'", "--indent x '$'"]:
    wants(f"jpath {words} a.json", 2, "", "error: *possible values: 1, 2, 3, 4, 5, 6, 7, 8*")

# names, entries and lengths
named = b'{"b":[1,{"z":1,"a":2}],"t\\ti":"\xc3\xa9\xf0\x9f\x98\x80","b":{"y":1,"x":[]},"":1.50}'
wants("jpath --keys '$'", 0, '"b"\n"t\\ti"\n""\n', given=named)
wants("jpath --keys -r '$'", 0, "b\nt\ti\n\n", given=named)
wants("jpath --keys -S -e '$' -e '$.b'", 0, '""\n"b"\n"t\\ti"\n"x"\n"y"\n', given=named)
wants("jpath --keys '$'", 0, "0\n1\n", given=b'["x",[]]')
wants("jpath --keys '$.*' ", 0, "", given=b'{"a":1,"b":"x","c":null,"d":{},"e":[]}')
wants("jpath --keys '$.none'", 1, "", given=named)
wants("jpath --entries '$'", 0, '"b"\t{"y":1,"x":[]}\n"t\\ti"\t"é😀"\n""\t1.50\n', given=named)
wants("jpath --entries -S -r '$'", 0, '\t1.50\nb\t{"x":[],"y":1}\nt\ti\té😀\n', given=named)
wants("jpath --entries -p '$.b'", 0, '"y"\t1\n"x"\t[\n  2\n]\n', given=b'{"b":{"y":1,"x":[2]}}')
wants("jpath --entries '$'", 0, '0\t"x"\n1\t{"a":2}\n', given=b'["x",{"a":1,"a":2}]')
wants("jpath --lengths -e '$' -e '$.*'", 0, "3\nnull\n2\n2\n", given=named)
wants("jpath --lengths '$[*]'", 0, "0\n0\n0\nnull\nnull\nnull\n3\n", given=b'["",[],{},0,true,null,"a\\u0000b"]')
wants("jpath --keys -H '$' a.json", 0, 'a.json:"a"\n')
wants("jpath --keys -0 -r '$'", 0, "b\0t\ti\0\0", given=named)
wants("jpath --keys --seq '$.b'", 0, '\x1e"y"\n\x1e"x"\n', given=named)
wants("jpath --keys -C always '$'", 0, '\x1b[32m"a"\x1b[0m\n', given=b'{"a":1}')
wants("jpath --entries -C always '$'", 0, '\x1b[36m0\x1b[0m\t\x1b[35mnull\x1b[0m\n', given=b"[null]")
many = "{" + ",".join(f'"n{number}":{number}' for number in range(40)) + ',"n7":0,"n0":[1]}'
wants("jpath --keys -r '$'", 0, "".join(f"n{number}\n" for number in range(40)), given=many.encode())
wants("jpath --lengths '$'", 0, "40\n", given=many.encode())
for words in ["--keys --entries '$'", "--keys --lengths '$'", "--entries --lengths '$'", "--keys -l '$'", "--entries -L '$'", "--lengths -a '$'", "--keys -c '$'", "--keys -q '$'", "--lengths -S '$'",
              "--lengths --tab '$'", "--keys --tab '$'", "--keys -p '$'", "--lengths -p '$'", "--entries --seq '$'", "--keys --null '$.a'", "--keys --rows '$' -e '$' --csv"]:
    wants(f"jpath {words} a.json", 2, "", "jpath: *")

# control characters of a name are escaped in its location, so none breaks the columns of -L
broken = b'{"a\\tb":1,"c\\nd":{"e\\r":2}}'
wants("jpath -L '$.*'", 0, "$['a\\tb']\t1\n$['c\\nd']\t{\"e\\r\":2}\n", given=broken)
wants("jpath -L '$..*' | cut -f 1", 0, "$['a\\tb']\n$['c\\nd']\n$['c\\nd']['e\\r']\n", given=broken)
wants("jpath -l '$.*'", 0, "$['a\\tb']\n$['c\\nd']\n", given=broken)
controls = '{"\\u001b[2J\\u0000\\u007f\x85":"\\u001b[2J\x9b\\r\\n\\t\\rx"}'.encode()
wants("jpath -l '$.*'", 0, "$['\\u001b[2J\\u0000\\u007f\\u0085']\n", given=controls)
wants("jpath -r '$.*'", 0, "\x1b[2J\x9b\r\n\t\rx\n", given=controls)
wants("jpath --keys -r '$'", 0, "\x1b[2J\0\x7f\x85\n", given=controls)

# exact numbers
many = b'[{"n":0.1},{"n":1e-400},{"n":0},{"n":-0},{"n":1e999},{"n":12345678901234567890123},{"n":12345678901234567890124},{"n":100e-3},{"n":-2.5e3}]'
wants("jpath '$[?(@.n == 0.1)].n'", 0, "0.1\n100e-3\n", "", many)
wants("jpath '$[?(@.n == 0)].n'", 0, "0\n-0\n", "", many)
wants("jpath '$[?(@.n > 0)].n'", 0, "0.1\n1e-400\n1e999\n12345678901234567890123\n12345678901234567890124\n100e-3\n", "", many)
wants("jpath '$[?(@.n < 0.1)].n'", 0, "1e-400\n0\n-0\n-2.5e3\n", "", many)
wants("jpath '$[?(@.n >= $[6].n)].n'", 0, "1e999\n12345678901234567890124\n", "", many)
wants("jpath '$[?(@.n == $[5].n)].n'", 0, "12345678901234567890123\n", "", many)
wants("jpath '$[4].n'", 0, "1e999\n", "", many)
wants("jpath '$[?(1 < 1.5)][0].n'", 0, "0.1\n", "", many)
wants("jpath '$[?(@.n == -2500)].n'", 0, "-2.5e3\n", "", many)
wants("jpath '$[?(@.n > 1)].n'", 3, "", "jpath: -:1:1: *exponent*\n", b'[{"n":1e9999999999999999999999999999999999999999}]')
wants("jpath '$[?(@.n > 1)].n'", 3, "", "jpath: -:2:8: *exponent*\n", b'1\n [2]\t  [{"n":1e9999999999999999999999999999999999999999}]')

# numbers in their order, equal ones side by side: each as a side of a comparison with all
rising = [["-1e400"], ["-12345678901234567890124"], ["-12345678901234567890123", "-1.2345678901234567890123e22"], ["-10", "-1e1", "-1.0e1", "-100e-1"],
          ["-0.55"], ["-0.5", "-5e-1", "-0.50"], ["-1e-99999999999999999999999999"], ["0", "-0", "0.0", "0e5", "-0e-7"],
          ["1e-99999999999999999999999999"], ["0.05", "5e-2", "0.5e-1", "50E-3"], ["8.95"], ["10", "1e1", "1e+01", "1.0e1", "100e-1"],
          ["12345678901234567890123"], ["12345678901234567890124"], ["1e400", "10e399"]]
every = [it for equal in rising for it in equal]
document = ("[" + ",".join(f'{{"n":{it}}}' for it in every) + "]").encode()
for place, equal in enumerate(rising):
    for at in (every.index(equal[0]), every.index(equal[-1])):
        below = "".join(it + "\n" for less in rising[:place] for it in less)
        wants(f"jpath '$[?(@.n < $[{at}].n)].n'", 0 if below else 1, below, "", document)
        wants(f"jpath '$[?(@.n == $[{at}].n)].n'", 0, "".join(it + "\n" for it in equal), "", document)

# words that make no sense together
for words in ["", "-q -r '$'", "-l -L '$'", "-l -a '$'", "-l -c '$'", "-a -c '$'", "--csv '$'", "--rows '$' --csv", "--rows '$' -e '$'",
              "--rows '$' -e '$' --csv --tsv", "--rows '$' -e '$' --csv -H", "-i '$' a.json", "-i --null '$.a'", "-c --null '$.a' a.json",
              "-H --null '$.a' a.json", "-e '$' --null '$.a'", "-i -k --null '$.a' a.json", "--set '$.a' '{' a.json"]:
    wants(f"jpath {words}", 2, "", "jpath: *")
for words in ["--no-such '$'", "-C sometimes '$'", "--set '$.a'"]:
    wants(f"jpath {words}", 2, "", "error: *")

# ./run says of each two options together what the program says, before there is a program; of what the program takes it says nothing
given = ["-r", "-p", "--indent 2", "--tab", "-S", "-a", "-l", "-L", "--keys", "--entries", "--lengths", "-c", "-q", "-H", "-k", "-j", "-0", "--seq", "--csv", "--tsv", "--header", "--copy", "-i",
         "--check", "-C never", "-e $.a", "--rows $", "--set $.a 1", "--add-text $.a x", "--remove $.b", "--completions zsh", "-h", "$", "-", "--none", "-C tcsh", "$['a|b'][1:2]", "-- -c"]
cases = [f"{one} {other}{more}" for at, one in enumerate(given) for other in given[at:] for more in ["", " $", " --rows $ -e $", " -i --null $.a none.json"]]
script = f'. "{here}/scripts/jpath_words.sh"; set -f; while read -r words; do fault_of_jpath_words $words; echo; done'
told = subprocess.run(["sh", "-c", script], input="".join(case + "\n" for case in cases).encode(), capture_output=True).stdout.decode().split("\n")
different = []
for case, fault in zip(cases, told):
    done = subprocess.run(["jpath", *case.split()], cwd=folder, capture_output=True, stdin=subprocess.DEVNULL)
    first = done.stderr.decode().split("\n")[0]
    if (fault and done.returncode != 2) or (fault.startswith("jpath: ") or done.returncode == 2 and first.startswith("jpath: -")) and fault != first:
        different.append((case, fault, first))
judge(len(told) == len(cases) + 1 and different == [], f"./run and jpath differ in {len(different)} of {len(cases)} pairs of options: {different[:3]}")

# arguments: whatever the text, the path's form stays
who = b"""[{"n":"it's","v":1},{"n":"a\\\\","v":2},{"n":"' || @.v > 0 || 'a' == '","v":3},{"n":"{x}","v":4.5}]"""
for text, found in [("it's", "1"), ("a\\", "2"), ("' || @.v > 0 || 'a' == '", "3"), ("{x}", "4.5")]:
    wants(f"jpath --arg x {shlex.quote(text)} '$[?(@.n == {{x}})].v'", 0, found + "\n", given=who)
wants("jpath --arg x v --argjson i 3 '$[{i}][{x}]'", 0, "4.5\n", given=who)
wants("jpath --argjson x 4.5 '$[?(@.v=={x})].n'", 0, '"{x}"\n', given=who)
wants("jpath --arg x '{x}' '$[?(@.n == {x} && @.n == \"{x}\")].v'", 0, "4.5\n", given=who)
wants("jpath --arg x v --rows '$[1]' -e 'V=$[{x}]' --csv --header", 0, "V\n2\n", given=who)
wants("jpath --arg x a --arg y '' --set '$[{x}]' 5 --null '$[{y}]'", 0, '{"a":5,"":null}', given=b'{"a":1,"":2}')
wants("jpath '$.{x}'", 0, "1\n", given=b'{"{x}":1}')
for words, error in [("--arg '' 1 '$[{x}]'", "want a name"), ("--arg x 1 --argjson x 1 '$[{x}]'", "given twice"), ("--arg x 1 '$.{x}'", "no path uses the argument x"), ("--arg x 1 '$[\"{x}\"]'", "no path uses"),
                     ("--argjson x true '$[{x}]'", "wants a number"), ("--argjson x '1 || 1' '$[{x}]'", "wants a number"), ("--argjson x 1e3 '$[{x}]'", "wants a number"), ("--arg x a '$[?(@.b = {x})]'", "has an error here")]:
    wants(f"jpath {words} a.json", 2, "", f"jpath: *{error}*")
wants("jpath --arg x a '$[{y}]' a.json", 2, "", "jpath: no path uses*")
for words in ["--arg", "--arg x"]:
    wants(f"jpath {words}", 2, "", "error: *")

# refused paths, with a caret and a hint
def refused(path, caret, hint):
    done = subprocess.run(["jpath", path, "a.json"], cwd=folder, capture_output=True, stdin=subprocess.DEVNULL)
    error = done.stderr.decode()
    wanted = f"  {path}\n  {' ' * caret}^\n"
    judge(done.returncode == 2 and done.stdout == b"" and wanted in error and hint in error, f"path {path}: {done.returncode} {error}")

refused("users", 0, "write $.users")
refused(".users[0]", 0, "write $.users[0]")
refused("[0]", 0, "write $[0]")
refused("$[?@.a]", 3, "[?(@.a)]")
refused("$[?(@.a == null)]", 11, "null")
refused("$[?(@.a = null)]", 8, "null")
refused("$[?(!@.a)]", 4, "no `!`")
refused("$.a[?(@.b == )]", 13, "a value on each side")
refused("$.a[?(@.b == && @.c)]", 13, "a value on each side")
refused("$.a[*", 5, "closed by ]: $.a[*]\n")
refused("$.a[?(@.b", 9, "closed by )]: $.a[?(@.b)]\n")
refused("$[a]", 2, "['a']")
refused('$."a"', 2, "brackets")
refused("$.a.length()", 10, "--lengths '$.a'")
refused("$.a[(@.b < 10)]", 4, "$.a[?(@.b < 10)]")
refused("$[?(@.a =~ 'x')]", 8, "regular")
refused("$[?(@.a = 1)]", 8, "==")
refused("$.a .b", 4, "blank")
refused("$[::-1]", 4, "backwards")
refused("$.한[", 5, 'expected: "*", "?", a quoted text, ":", an index\n')
refused("$.a b", 4, "expected: the end\n")
refused("$[?(@.a x)]", 8, 'expected: ")", a comparison, "&&", "||"\n')
refused("$[?(1.x == 2)]", 6, "expected: digits\n")
for path, caret, hint in [(".a[]", 0, "write $.a[*]"), (".users[].n", 0, "write $.users[*].n"), ("$.users[].n", 8, "$.users[*].n"), (".a | length", 0, "jpath -c '$.a[*]'"),
                          ("$.a | length", 4, "jpath -c"), ("length", 0, "jpath -c"), ("wavelength", 0, "write $.wavelength"), ("keys", 0, "jpath --keys '$'"), (".title?", 0, "write $.title\n"), ("$.title?", 7, "$.title\n"),
                          ("$.a, .b", 3, "-e '$.a' -e '$.b'"), (".a, .b", 0, "-e '$.a' -e '$.b'"), ("$[?(@.a in ['x'])]", 8, "no `in`"), ("books.json", 0, "comes before the FILE"),
                          ("$[?(@.t == cod)].x", 11, "$[?(@.t == 'cod')].x"), ("$[?(@.t > 10.day && @.b)]", 13, "$[?(@.t > '10.day' && @.b)]"), (".[] | select(.a == 1)", 0, "$[?(")]:
    refused(path, caret, hint)
for path, caret, hint in [("$.my key", 5, "quotes: $['my key']\n"), ("$.x[*].a b.c", 9, "quotes: $.x[*]['a b'].c\n"), ("$..a b", 5, "quotes: $..['a b']\n"), ("$.a b c", 4, "quotes: $['a b c']\n"), ("$.book[?(@.price < 10].title", 21, "closed by )]: $.book[?(@.price < 10)].title\n"), ("$[?(@.price].t", 11, "closed by )]: $[?(@.price)].t\n"), ("$[?(@.a > .5)]", 10, "0.5, 100"), ("$[?(@.a == 1e2)]", 11, "0.5, 100"), ("$[?(@.d > 2024-01-01)]", 10, "'2024-01-01'"), ("$[?(@.ip == 10.0.0.1)]", 16, "'10.0.0.1'"),
                          ("$[?(@.a > 1.5e3)]", 12, "0.5, 100"), ("$[?(@.a > 5.)]", 12, "0.5, 100"),
                          ("$[?(@.t == Moby Dick)]", 11, "needs quotes"), ("$[?(@.a == {x})]", 11, "--arg NAME TEXT"), ("$[{x}]", 2, "--arg NAME TEXT")]:
    refused(path, caret, hint)
for path, caret, hint in [(".. | .price? // empty", 0, "there is no //"), ("$.price? // empty", 7, "there is no //"), ("data/books.json", 0, "comes before the FILE"), ("/tmp/x.json", 0, "comes before the FILE"), ("./x", 0, "comes before the FILE"),
                          ("/store/book", 0, "write $.store.book;"), ("/store/book[1]/title", 0, "an index counts from 0"), ("//book[0]", 0, "an index counts from 0"), ("//book", 0, "write $..book\n"), ("$/store/book", 0, "separated by dots: $.store.book\n"), (".a,.b", 0, "-e '$.a' -e '$.b'"), ("[0,1]", 0, "write $[0,1]\n"),
                          ("keys[]", 0, "jpath --keys '$'"), ("keys_unsorted", 0, "jpath --keys '$'"), ("keys_unsorted[]", 0, "jpath --keys '$'"), (".a | keys", 0, "jpath --keys '$'"), (".keys", 0, "write $.keys\n"),
                          ("to_entries", 0, "jpath --entries '$'"), (".a | to_entries", 0, "jpath --entries '$'"), ("with_entries(.value.n)", 0, "jpath --entries '$'"), ("paths", 0, "jpath -l '$..*'"), (".a|length", 0, "jpath --lengths '$.a'"),
                          ("map(.x)", 0, "no functions"), ("sort_by(.x)", 0, "no functions"), ("group_by(.x)", 0, "no functions"), (".a | add", 0, "no functions"), ("add", 0, "write $.add\n"),
                          (".rate = 0.5", 0, "jpath --set '$.rate' 0.5"), ("$.rate=0.5", 6, "jpath --set '$.rate' 0.5"), (".a |= 3", 0, "jpath --set"), (".a += 1", 0, "--set '$.a' 2"), ('.list += ["x"]', 0, "jpath --append '$.list' '\"x\"'"), ("del(.x)", 0, "jpath --remove '$.x'"),
                          ("$[?(@.a === 1)]", 10, "written ==: $[?(@.a == 1)]\n"), ("$[?(@.a !== 1)]", 10, "written !=: $[?(@.a != 1)]\n"), ("$[?(@.a <> 1)]", 9, "written !=: $[?(@.a != 1)]\n"), (".store.book[] | select(.price < 10)", 0, "$[?(@.price < 10)]")]:
    refused(path, caret, hint)
# what SQL, XPath, JavaScript and word processors have; a quoted text with such signs in it stays
for path, caret, hint in [("//book/title", 0, "write $..book..title; [*] behind a name"), ("/store/book/title", 0, "write $.store.book.title; [*] behind a name"), ("/a//b", 0, "write $.a..b;"),
                          ("//book[@.price<10]", 0, "write $..book[?(@.price<10)]\n"), ("$[@.price<10]", 2, "$[?(@.price<10)]\n"), ("[@.price<10]", 0, "write $[?(@.price<10)]\n"), ("[?@.price<10].t", 0, "write $[?(@.price<10)].t\n"),
                          ("$.a[@.b < 10].c[0]", 4, "$.a[?(@.b < 10)].c[0]\n"), ("$[@.a == 'x' && @.b]", 2, "$[?(@.a == 'x' && @.b)]\n"), ("$.a[@.b == 'x]y']", 4, "$.a[?(@.b == 'x]y')]\n"),
                          ("$.a[last()].b", 4, "$.a[-1].b\n"), (" $.a", 0, "begins with $: write $.a\n"), ("  $[0].b", 0, "begins with $: write $[0].b\n"), (" users", 0, "write $.users\n"),
                          ("$[?(@.a > 1 AND @.b < 2)]", 12, "&&: $[?(@.a > 1 && @.b < 2)]\n"), ("$[?(@.a == 'x AND y' AND @.b)]", 21, "&&: $[?(@.a == 'x AND y' && @.b)]\n"), ("$[?(@.a and @.b and @.c)]", 8, "&&: $[?(@.a && @.b && @.c)]\n"),
                          ("$[?(@.a OR @.b)]", 8, "||: $[?(@.a || @.b)]\n"), ("$[?(@.a > 1 AND @.b LIKE 'x')]", 12, "joined by && and ||: [?(@.a && @.b)]\n"), ("$[?(@.a == \"it's\" AND @.b)]", 18, "joined by && and ||: [?(@.a && @.b)]\n"), ("$[?(@.a IN ('x','y'))]", 8, "no `in`"), ("$[?(@.a NOT IN ('x'))]", 8, "no `!`"),
                          ("$[?(@.a LIKE 'x%')]", 8, "regular"), ("$[?(@.a is null)]", 8, "can't ask for null"), ("$[?(@.a IS NOT NULL)]", 8, "can't ask for null"), ("$[?(@.a BETWEEN 1 AND 2)]", 8, "@.a >= 1 && @.a <= 9"),
                          ("$[?(@.a == undefined)]", 11, "can't ask for null"), ("$[?(@.a == NULL)]", 11, "can't ask for null"), ("$[?(@.a == undefinedly)]", 11, "quotes: $[?(@.a == 'undefinedly')]\n"),
                          ("$[?(@.a < 8,95)]", 11, "no comma"), ("$[?(@.a == 1,000 && @.b)]", 12, "no comma"), ("$[?(@.my key > 1)]", 9, "quotes: $[?(@['my key'] > 1)]\n"),
                          ("$[?(@.a.includes('x'))]", 16, "no functions in a filter"), ("$[?(@.a.contains('x'))]", 16, "no functions in a filter"), ("$[?(@.a contains 'x')]", 8, "no functions in a filter"), ("$.a.includes('x')", 12, "no functions in a path"),
                          ("$[?(@.a === 'x === y')]", 10, "written ==: $[?(@.a == 'x === y')]\n"), ("$/a['b/c']/d", 0, "dots: $.a['b/c'].d\n"), ("$['=~'].b c", 10, "quotes: $['=~']['b c']\n"), ("$[?(@.a = 'it ‘is’ AND')]", 8, "signs: $[?(@.a == 'it ‘is’ AND')]\n"),
                          ("$[?(@.a == ‘x’)]", 11, "sides: $[?(@.a == 'x')]\n"), ("$[?(@.a == “x y”)]", 11, 'sides: $[?(@.a == "x y")]\n'), ("$[`a`]", 2, "sides: $['a']\n"), ("$[?(@.a == ‘b AND c’ AND @.d)]", 11, "&&: $[?(@.a == 'b AND c' && @.d)]\n")]:
    refused(path, caret, hint)
for path in ["$[?(@.a == “it's”)]", "$[‘it's’]"]:
    done = subprocess.run(["jpath", path, "a.json"], cwd=folder, capture_output=True, stdin=subprocess.DEVNULL)
    judge(done.returncode == 2 and "hint" not in done.stderr.decode(), f"path {path} has a hint: {done.stderr.decode()}")
for path, shown, error in [('$[?(@.a == {x} && @.b == "c)]', '$[?(@.a == \'v\' && @.b == "c)]', "isn't closed"), ("$[?(@.a = {x})]", "$[?(@.a = 'v')]", "signs: $[?(@.a == 'v')]\n"),
                           ("$[?(@.a == {x} & {x} > @.b)]", "$[?(@.a == 'v' & 'v' > @.b)]", "&&: $[?(@.a == 'v' && 'v' > @.b)]\n")]:
    done = subprocess.run(["jpath", "--arg", "x", "v", path, "a.json"], cwd=folder, capture_output=True, stdin=subprocess.DEVNULL)
    judge(done.returncode == 2 and done.stdout == b"" and f"  {shown}\n" in done.stderr.decode() and error in done.stderr.decode(), f"path {path} with an argument: {done.stderr.decode()}")
wants("jpath '$[?(@.a && @.b || @.c)]' a.json", 1, "", "jpath: warning: *")
wants("jpath '$[?((@.a && @.b) || @.c)]' a.json", 1, "")

# ---- edits: bytes outside the targets stay

layout = '\n{ "a" : 1 ,\t"b":[ 1 , 2,3 ] , "c":{"d":"x"}\n}\n\n'
def edit(words, wanted, status=0, given=layout, error=""):
    wants(f"jpath {words}", status, wanted, error, given.encode())

edit("--null '$.a'", layout.replace('"a" : 1', '"a" : null'))
edit("--set '$.c.d' ' [ 1 ] '", layout.replace('"x"', "[1]"))
edit("--set-text '$.c.d' '-\"'", layout.replace('"x"', '"-\\""'))
edit("--remove '$.a'", layout.replace(' "a" : 1 ,', ""))
edit("--remove '$.c'", layout.replace(' , "c":{"d":"x"}', ""))
edit("--remove '$.b[1]'", layout.replace(" 2,", ""))
edit("--remove '$.b[0]'", layout.replace(" 1 , 2,3 ]", " 2,3 ]"))
edit("--remove '$.b[2]'", layout.replace("2,3 ]", "2 ]"))
edit("--remove '$.b[*]'", layout.replace("[ 1 , 2,3 ]", "[ ]"))
edit("--remove '$.x'", layout, 1, layout, "jpath: $.x: nothing is edited: *\n")
edit("--null '$'", layout, 1, layout, "jpath: $: *\n")
edit("--null '$..*'", '\n{ "a" : null ,\t"b":null , "c":null\n}\n\n')
edit("-p --null '$.b'", '{\n  "a": 1,\n  "b": null,\n  "c": {\n    "d": "x"\n  }\n}\n')
edit("--remove '$.a'", '{"b":2}', 0, '{"a":1,"b":2,"a":3}')
edit("--set '$.a' 5", '{"a":1,"b":2,"a":5}', 0, '{"a":1,"b":2,"a":3}')
edit("--remove '$[?(@.n < 0.5)]'", '[{"n":0.75}]', 0, '[{"n":0.25},{"n":0.75}]')
edit("--null '$.a'", '{"a":null}\n{"a":null}', 0, '{"a":1}\n{"a":2}')
edit("--null '$.a'", '\ufeff{"a":null}', 0, '\ufeff{"a":1}')
edit("--set '$.a' 1 --remove '$.b'", '{"a":1}', 0, '{"a":0,"b":1}')

# ---- edits that make something, laid out like what is there

edit("--add '$.d' 7", layout.replace("\n}", ' , "d":7\n}'.replace(" , ", ', ')))
edit("--add '$.a' 7", layout.replace('"a" : 1', '"a" : 7'))
edit("--add '$.c.e' '[1, 2]'", layout.replace('"x"', '"x","e":[1,2]'))
edit("--add-text '$.c[\"e \\\"\"]' 'y\"'", layout.replace('"x"', '"x","e \\"":"y\\""'))
edit("--append '$.b' 4", layout.replace("2,3", "2,3,4"))
edit("--append '$.*' 4", layout.replace("2,3", "2,3,4"))
edit("--rename '$.c' q", layout.replace('"c"', '"q"'))
edit("--rename '$.c' a", layout, 1, layout, "jpath: $.c: not renamed: *\n")
edit("--rename '$..d' '\"'", layout.replace('"d"', '"\\""'))
for path in ["$.x.y", "$.b.y", "$.a.y", "$.b[0].y", "$.b[3].y"]:
    edit(f"--add '{path}' 1", layout, 1, layout, f"jpath: {path}: nothing is edited: *\n")
edit("--append '$.c' 1", layout, 1, layout, "jpath: $.c: nothing is edited: *\n")
edit("--rename '$.x' y", layout, 1, layout, "jpath: $.x: nothing is edited: *\n")
edit("--set '$.x' 1 --set '$.a' 2", layout.replace('"a" : 1', '"a" : 2'), 0, layout, "jpath: $.x: nothing is edited: *\n")
lines = '{\n  "a": {},\n  "b": [],\n  "c": {\n    "d": 1\n  }\n}'
edit("--add '$.c.e' 2", lines.replace("1\n", '1,\n    "e": 2\n'), 0, lines)
edit("--add '$.a.e' 2", lines.replace("{},", '{\n    "e": 2\n  },'), 0, lines)
edit("--append '$.b' 2", lines.replace("[]", "[\n    2\n  ]"), 0, lines)
edit("--add '$.a.e' 2", lines.replace("{},", '{\n    "e": 2\n  },').replace("\n", "\r\n"), 0, lines.replace("\n", "\r\n"))
for before, after in [("{}", '{"n":1}'), ('{"a":1}', '{"a":1,"n":1}'), ('{"a": 1}', '{"a": 1, "n": 1}'), ('{ "a": {} }', '{ "a": {}, "n": 1 }'), ('{"a":1,\n"b":2}', '{"a":1,\n"b":2,\n"n":1}'),
                      ('{"a":1,"a":2}', '{"a":1,"a":2,"n":1}'), ('{"n":3,"n":2}', '{"n":3,"n":1}'), ("{\n}", '{\n"n":1\n}')]:
    edit("--add '$.n' 1", after, 0, before)
for before, after in [("[]", "[1]"), ("[2]", "[2,1]"), ("[2, 3]", "[2, 3, 1]"), ("[\n 2\n]", "[\n 2,\n 1\n]")]:
    edit("--append '$' 1", after, 0, before)
edit("--append '$..a' 1", '{"a":[[],1],"b":{"a":[1]}}', 0, '{"a":[[]],"b":{"a":[]}}')
edit("--rename '$.a' b", '{"b":1,"c":2,"b":3}', 0, '{"a":1,"c":2,"a":3}')
edit("--rename '$..a' b", '{"b":{"a":1},"c":{"b":2}}', 0, '{"a":{"a":1},"c":{"a":2}}')
edit("--add '$.n' 1", '{"n":1}\n{"a":2,"n":1}\n', 0, '{}\n{"a":2}\n')
deep = "[" * 126
edit("--append '$" + "[0]" * 125 + "' 1", deep + "1" + "]" * 126, 0, deep + "]" * 126)
edit("--append '$" + "[0]" * 126 + "' '[1]'", "", 3, deep + "[]" + "]" * 126, "jpath: *")
for words in ["--add '$..a' 1", "--add '$.*' 1", "--add '$[?(@.a)]' 1", "--add '$[?(@.a)].b' 1", "--add '$.b[-1].c' 1", "--add '$.b[0]' 1", "--add '$' 1", "--add \"\\$['a','b']\" 1",
              "--add '$.b[0:1].c' 1", "--add '$.a' '{'", "--append '$.b' x", "--rename '$.*' x", "--rename '$' x", "--rename '$.b[0]' x"]:
    wants(f"jpath -i {words} a.json", 2, "", "jpath: *")

# ---- in place: mode and links stay, nothing is lost, nothing is left beside

def text_of(name):
    with open(f"{folder}/{name}") as it:
        return it.read()

with open(f"{folder}/edited.json", "w") as it:
    it.write(layout)
os.chmod(f"{folder}/edited.json", 0o640)
os.symlink("edited.json", f"{folder}/link.json")
before = sorted(os.listdir(folder))
wants("jpath -i --null '$.a' link.json", 0, "")
judge(text_of("edited.json") == layout.replace('"a" : 1', '"a" : null'), "the file behind the link is edited")
judge(os.path.islink(f"{folder}/link.json"), "the link stays")
judge(stat.S_IMODE(os.stat(f"{folder}/edited.json").st_mode) == 0o640, "the mode stays")
wants("jpath -i --null '$.x' edited.json", 1, "", "jpath: $.x: nothing is edited: *\n")
wants("jpath -i --null '$.a' bad.json", 3, "", "jpath: bad.json:3:*\n")
judge(text_of("bad.json").startswith('{"a":1}\n'), "a file with a refused document stays")
wants("ulimit -f 0; trap '' XFSZ; jpath -i --set '$.a' 7 a.json", 4, "", "jpath: a.json: *\n")
judge(text_of("a.json") == '{"a":1}\n', "a file that can't be written stays")
wants("jpath -i --set '$.a' 7 none.json a.json", 4, "", "jpath: none.json: *\n")
judge(text_of("a.json") == '{"a":7}\n', "the next file is edited")
judge(sorted(os.listdir(folder)) == before, "nothing is left beside the files")

# a disk that is full, where one can be made
disk = f"{work}/disk"
os.mkdir(disk)
if shell(f"mount -t tmpfs -o size=64k tmpfs {disk}", work)[0] == 0:
    try:
        with open(f"{disk}/a.json", "w") as it:
            it.write('{"a":"' + "x" * 40000 + '"}\n')
        whole = open(f"{disk}/a.json").read()
        full = shell("jpath -i --set '$.a' 1 --set-text '$.b' x a.json; jpath -i --null '$.a' a.json; echo done", disk)
        judge(open(f"{disk}/a.json").read() == '{"a":null}\n', f"a small edit on a small disk: {full}")
        with open(f"{disk}/a.json", "w") as it:
            it.write(whole)
        got = shell("jpath -i --set-text '$.a' \"$(printf '%040000d' 0)\" a.json", disk)
        judge(got[0] == 4 and fits(got[2], "jpath: a.json: *\n"), f"an edit on a full disk gave {got}")
        judge(open(f"{disk}/a.json").read() == whole, "a file on a full disk stays")
        judge(os.listdir(disk) == ["a.json"], "nothing is left on a full disk")
    finally:
        shell(f"umount {disk}", work)
else:
    print("jpath: no small disk can be mounted here: a full disk is passed over")

# ---- many cores: a file cut at its line ends

if shell("command -v parallel", folder)[0] == 0:
    with open(f"{folder}/many.json", "w") as it:
        it.write("".join(f'{{"id":{i},"n":{i}.5}}\n' for i in range(5000)))
    got = shell("parallel --will-cite -k --pipe-part -a many.json --block 20k jpath \"'\\$[?(@.n > 2500)].id'\"", folder)
    judge(got[1] == "".join(f"{i}\n" for i in range(2500, 5000)), f"parallel gave {len(got[1])} bytes, {got[2]}")
    os.remove(f"{folder}/many.json")
else:
    print("jpath: GNU parallel isn't installed: it is passed over")

# ---- colours on a terminal alone

def on_terminal(words, **more):
    leader, follower = pty.openpty()
    subprocess.run(["bash", "-c", words], cwd=folder, stdout=follower, stdin=subprocess.DEVNULL, env={**os.environ, **more})
    os.close(follower)
    said = b""
    try:
        while part := os.read(leader, 4096):
            said += part
    except OSError:
        pass
    os.close(leader)
    return said

judge(b"\x1b[" in on_terminal("jpath '$' a.json", NO_COLOR=""), "colours on a terminal")
judge(b"\x1b[" not in on_terminal("jpath '$' a.json", NO_COLOR="1"), "no colours with NO_COLOR")
judge(b"\x1b[" not in on_terminal("jpath -C never '$' a.json"), "no colours where they aren't wanted")
wants("jpath -C always '$' a.json", 0, '{\x1b[34;1m"a"\x1b[0m:\x1b[36m7\x1b[0m}\n')

# ---- no control character of a document on a terminal, but for tabs and line ends (before each of these it puts a return)

with open(f"{folder}/controls.json", "wb") as it:
    it.write(controls)
for words, shown in [
    ("-r -C never '$.*'", "\\u001b[2J\\u009b\r\r\n\t\\rx\r\n"),
    ("-r '$.*'", "\\u001b[2J\\u009b\r\r\n\t\\rx\r\n"),
    ("--keys -r '$'", "\\u001b[2J\\u0000\\u007f\\u0085\r\n"),
    ("-C never '$'", '{"\\u001b[2J\\u0000\\u007f\\u0085":"\\u001b[2J\\u009b\\r\\n\\t\\rx"}\r\n'),
    ("-C never --null '$.none'", controls.decode().replace("\x85", "\\u0085").replace("\x9b", "\\u009b")),
]:
    said = on_terminal(f"jpath {words} controls.json")
    judge(said.decode() == shown, f"on a terminal jpath {words} writes {said}")

# ---- completions, in the shells that are here

for shell_name in ["bash", "zsh", "fish"]:
    done = shell(f"jpath --completions {shell_name} > {work}/completions.{shell_name}", folder)
    judge(done[0] == 0 and all(it in open(f"{work}/completions.{shell_name}").read() for it in ["with-locations", "set-text", "argjson", "help"]), f"completions for {shell_name}")
wants("jpath --completions csh", 2, "", "error: *")

def completed(words, begin, typed):
    """What an interactive shell shows behind what is typed, with its tabs."""
    process, terminal = pty.fork()
    if process == 0:
        os.chdir(work)
        os.execvpe(words[0], words, {**os.environ, "TERM": "dumb"})
    def read():
        said = b""
        while select.select([terminal], [], [], 1.5)[0]:
            said += os.read(terminal, 4096)
        return said
    read()
    os.write(terminal, begin.encode() + b"\n")
    read()
    os.write(terminal, typed.encode())
    said = read()
    os.kill(process, signal.SIGKILL)
    os.close(terminal)
    os.waitpid(process, 0)
    return said.decode()

os.mkdir(f"{work}/zsh")
os.rename(f"{work}/completions.zsh", f"{work}/zsh/_jpath")
for typed, wanted in [("jpath --with-l", "--with-locations"), ("jpath -C al", "always"), ("jpath --set-", "--set-text"), ("jpath '$.a' ba", "bad.json")]:
    judge(wanted in completed(["bash", "--norc", "-i"], f"cd {folder}; . {work}/completions.bash", typed + "\t"), f"bash completes '{typed}'")
    if shell("command -v zsh", folder)[0] == 0:
        judge(wanted in completed(["zsh", "-f", "-i"], f"cd {folder}; fpath=({work}/zsh $fpath); autoload -U compinit; compinit -u -D", typed + "\t"), f"zsh completes '{typed}'")
    if shell("command -v fish", folder)[0] == 0:
        got = subprocess.run(["fish", "--no-config", "-c", f"source {work}/completions.fish; complete -C $argv[1]", typed], cwd=folder, capture_output=True)
        judge(wanted in got.stdout.decode(), f"fish completes '{typed}': {got}")

# ---- the man page, the page and the program name the same options

said = shell("jpath --help", folder)
judge(said[0] == 0 and said[2] == "" and "Status: 0" in said[1] and said[1].count("\n  jpath ") == 5, f"--help: {said}")
judge(shell("jpath --version", folder)[0] == 0, "--version")
options = set(re.findall(r"(?<![\w-])--?[A-Za-z0][a-z-]*", said[1]))
options = {it for it in options if re.search(r"(?m)^\s+(-\w, )?" + re.escape(it) + r"\b|^\s+" + re.escape(it) + r",", said[1])}
manual = set(re.findall(r"(?<![\w-])--?[A-Za-z0][a-z-]*", "\n".join(
    line for before, line in zip([""] + lines_of("docs/jpath.1"), lines_of("docs/jpath.1")) if before == ".TP").replace("\\-", "-").replace("\\f", " ")))
judge(options and options == manual, f"the man page: {sorted(options ^ manual)}")
shown = set()
for line in page:
    cells = line.split("|")
    if len(cells) == 4 and cells[1].strip().startswith("`-"):
        shown |= set(re.findall(r"(?<![\w-])--?[A-Za-z0][a-z-]*", cells[1]))
judge(options == shown, f"docs/JPATH.md: {sorted(options ^ shown)}")

print(f"{passed} passed, {failed} failed")
sys.exit(failed > 0)
TEXT
