#!/usr/bin/env bash
# The pages: each link leads to a file and each anchor to a heading that is there; each page is linked from README or from a page
# that is; none is longer than it may be, nor all together; LICENSE is there; and no word of the house, for which the field has one
# of its own, stands in pages, manuals and public comments (code aside). `WORDS` has the field's words. Last line: 'N passed, M failed'.
set -u
cd "$(dirname "${BASH_SOURCE[0]}")/.." || exit 1
exec python3 - << 'TEXT'
import glob, os, re, sys, tempfile

passed, failed = 0, 0

def judge(holds, what):
    global passed, failed
    passed, failed = passed + bool(holds), failed + (not holds)
    if not holds:
        print(f"pages: {what}")

def text_of(file):
    with open(file, encoding="utf-8") as it:
        return it.read()

LINES = {"README.md": 150, "CONTRIBUTING.md": 60, "docs/PATHS.md": 230, "docs/FROM-OTHERS.md": 130, "docs/JPATH.md": 145, "docs/jpath.1": 195,
         "docs/jsonpath_run.1": 70, "docs/LIBRARY.md": 220, "docs/CALLING.md": 100, "docs/PROOF.md": 200, "docs/MUTANTS.md": 75, "docs/DEFINITIONS.md": 205,
         "docs/IN-PLACE.md": 30, "docs/LIMITS.md": 45, "docs/BENCHMARKS.md": 150, "docs/ARCHITECTURE.md": 150, "docs/GATE.md": 35}
README_BYTES, ALL_BYTES = 10_000, 170_000
# What is said of the house in words of its own, and the field's.
WORDS = {
    r"spots?": "node", r"strides?": "step, segment", r"tall(?:y|ies)": "accumulator", r"unread": "float, no integer of 64 bits",
    r"want of memory": "out of memory", r"(?:gives?|given|giving) (?:out|back)": "re-exports, returns",
    r"hand(?:ed|s|ing)": "passed, borrowed, returned", r"hand (?:in|on|out|over)": "pass", r"lent|lends?|lenders?|lending": "borrowed",
    r"told|tells?": "determined, reported, passed", r"refus\w+": "rejected, returns an error; error", r"laws?": "lemma",
    r"promis\w+": "guarantee, postcondition", r"wrong bod(?:y|ies)": "mutant", r"seen as": "model", r"topmost": "without a selected ancestor",
    r"what stands|stands?": "is, the value at", r"to be had": "there is", r"spell(?:s|ed)?": "parses to", r"marks?": "node reference",
    r"held": "stored, owned", r"rooms?": "folder; memory", r"the gate": "CI",
}
PRIVATE = re.compile(rf"\b(?:{'|'.join(WORDS)})\b", re.IGNORECASE)
# Rows say `refused:` and have a column `Refused`, which `scripts/page_rows.py` reads. A byte order mark is the field's word, room on a stack, too.
FIELD = re.compile(r"\| refused: ``|^\| Refused \||\bbyte order marks?\b|\broom on (?:the|a) stack\b", re.IGNORECASE)

def prose_of(line):
    """A line without code, links' goals, and what is the field's own."""
    line = re.sub(r"``.*?``|`[^`]*`", "``", line)
    return FIELD.sub("", re.sub(r"\]\([^)]*\)", "]", line))

def private_words(lines):
    """The private words of a page's lines outside its code, with the numbers of their lines."""
    found, is_code = [], False
    for number, line in enumerate(lines, 1):
        if line.strip().startswith("```"):
            is_code = not is_code
        elif not is_code:
            found += [(number, it[0]) for it in PRIVATE.finditer(prose_of(line))]
    return found

def anchors_of(text):
    """The anchors of a page's headings, as GitHub makes them."""
    anchors, is_code = set(), False
    for line in text.split("\n"):
        is_code ^= line.startswith("```")
        heading = None if is_code else re.match(r"#+ (.*)", line)
        if heading:
            name = re.sub(r"[^\w\- ]", "", heading[1].strip().lower()).replace(" ", "-")
            anchors.add(name)
    return anchors

def links_of(text):
    text = re.sub(r"(?ms)^```.*?^```", "", text)
    return re.findall(r"\]\(([^)\s]+)\)", re.sub(r"`[^`]*`", "``", text))

def broken_links(pages):
    """The links of pages, by their files, that lead nowhere, and the pages to which none leads."""
    broken, reached = [], {pages[0]}
    for page in pages:
        for link in links_of(text_of(page)):
            if link.startswith(("https://", "http://")):
                continue
            goal, _, anchor = link.partition("#")
            file = os.path.normpath(os.path.join(os.path.dirname(page), goal)) if goal else page
            if not os.path.exists(file) or anchor and anchor not in anchors_of(text_of(file)):
                broken.append(f"{page}: {link}")
            elif file != page:
                reached.add(file)
    return broken, [it for it in pages if it not in reached]

pages = ["README.md", "CONTRIBUTING.md", *sorted(glob.glob("docs/*"))]
judge(sorted(pages) == sorted(LINES), f"pages and their lengths differ: {sorted(set(pages) ^ set(LINES))}")
for page in pages:
    lines = text_of(page).count("\n")
    judge(lines <= LINES.get(page, 0), f"{page} has {lines} lines, of {LINES.get(page, 0)}")
    found = private_words(text_of(page).split("\n"))
    judge(not found, f"{page}: {'; '.join(f'line {number}: {word}' for number, word in found)}")
sizes = {page: len(text_of(page).encode()) for page in pages}
judge(sizes["README.md"] <= README_BYTES, f"README.md has {sizes['README.md']} bytes")
judge(sum(sizes.values()) <= ALL_BYTES, f"all pages together have {sum(sizes.values())} bytes")
broken, unreached = broken_links(pages)
judge(not broken, f"these links lead nowhere: {'; '.join(broken)}")
judge(not unreached, f"no link leads to {', '.join(unreached)}")
judge(sum(len(links_of(text_of(it))) for it in pages) > 60, "hardly any link is there")
judge("MIT License" in text_of("LICENSE") and "WITHOUT WARRANTY" in text_of("LICENSE"), "LICENSE is no MIT License")

# Public comments: those of items, and of modules.
seen = 0
for file in sorted(glob.glob("crates/*/src/**/*.rt", recursive=True)):
    comments = [re.match(r"\s*//[/!] ?(.*)$", it) for it in text_of(file).split("\n")]
    seen += sum(it is not None for it in comments)
    found = private_words([it[1] if it else "" for it in comments])
    judge(not found, f"{file}: {'; '.join(f'line {number}: {word}' for number, word in found)}")
judge(seen > 2000, f"there are {seen} lines of comments alone")

# The rules find what is made up here, and nothing else.
made_up = ["A spot `spot` is told.", "```", "the laws", "```", "| refused: `Eof` | [held](laws.md) a byte order mark", "Understood, outstanding, a landmark."]
judge(private_words(made_up) == [(1, "spot"), (1, "told"), (5, "held")], f"the rule on words finds {private_words(made_up)}")
with tempfile.TemporaryDirectory() as work:
    texts = {"a.md": "# A `b`: c\n[x](b.md#two-words) [y](b.md#three) [z](#a-b-c) [w](none.md) `[v](none.md)`\n", "b.md": "## Two words\n", "c.md": "\n"}
    for name, text in texts.items():
        with open(f"{work}/{name}", "w", encoding="utf-8") as it:
            it.write(text)
    broken, unreached = broken_links([f"{work}/{it}" for it in texts])
    judge([it.rpartition(": ")[2] for it in broken] == ["b.md#three", "none.md"], f"the rule on links finds {broken}")
    judge(unreached == [f"{work}/c.md"], f"the rule on pages without a link finds {unreached}")
print(f"{passed} passed, {failed} failed")
sys.exit(failed != 0)
TEXT
