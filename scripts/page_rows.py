"""Prints the rows of a page of docs/ as lines of JSON, which crates/jsonpath_tests/tests/rows keeps and replays:

    python3 scripts/page_rows.py docs/PATHS.md > crates/jsonpath_tests/tests/rows/PATHS.jsonl

They stand in the tables whose head has a cell `Path`, `Words` or `Refused`. `Path` is a path to select by, `Words` are the
program's words, each in code of its own; `Document` is the input, and `Answer` the output, or `refused:` and the message.
`Refused` is a path for which `check` fails with the message of `Where`; beside it `Path` may be empty. A cell that is to
have code and has none ends this with an error.
"""
import json
import re
import sys


def codes(cell):
    """What stands in backticks in a cell."""
    return cell.split("`")[1::2]


def row(words, given, answer, is_refused=False):
    if not is_refused:
        return {"words": words, "input": given, "status": 0, "output": answer + "\n", "error": ""}
    kind = "path" if answer == "Eof" or answer.startswith("Position:") else "serde"
    return {"words": words, "input": given, "status": 1, "output": "", "error": f"{kind} error: \n{answer}\n\n"}


def rows_of_line(cells):
    """The rows of a line of a table, whose cells go by the names in the table's head."""
    found = []
    if "Refused" in cells:
        found.append(row(["check", codes(cells["Refused"])[-1]], "", codes(cells["Where"])[-1], is_refused=True))
    if cells.get("Path") or "Path" in cells and "Refused" not in cells:
        words = ["select", codes(cells["Path"])[-1]]
    else:
        words = codes(cells["Words"]) if "Words" in cells else None
    if words is not None:
        found.append(row(words, codes(cells["Document"])[-1], codes(cells["Answer"])[-1], cells["Answer"].startswith("refused: ")))
    return found


def rows_of(page):
    """The rows of a page's text, in its order."""
    found, head = [], None
    for line in page.split("\n"):
        cells = [it.strip().replace("\\|", "|") for it in re.split(r"(?<!\\)\|", line.strip())[1:-1]]
        if not line.startswith("|"):
            head = None
        elif head is None:
            head = cells
        elif not line.startswith("|-"):
            found += rows_of_line(dict(zip(head, cells)))
    return found


def text_of_rows(file):
    with open(file, encoding="utf-8") as page:
        return "".join(json.dumps(it, ensure_ascii=False) + "\n" for it in rows_of(page.read()))


if __name__ == "__main__":
    sys.stdout.write(text_of_rows(sys.argv[1]))
