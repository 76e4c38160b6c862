"""Checks the graphs of this repository against the program and against docs/graph.schema.json.

Each row of checks/refusals.json is a graph that the program has to refuse with the line that the row says, and says
whether the schema refuses it too. Each example has to pass the schema. The schema is left out where python3's
jsonschema isn't installed.
"""

import json
import pathlib
import sys
import tempfile

import program

STATUSES = {"usage": 1, "text": 2, "graph": 3, "limit": 4}


def text_of(row):
    """The text of a row's graph."""
    if "text" in row:
        return row["text"]
    if "repeat" in row:
        member, count = row["repeat"]
        return json.dumps({"components": [], member: [0] * count})
    return json.dumps(row["graph"], ensure_ascii=False)


def refusal_of(text, folder):
    """The program's status, output and error line for a graph's text."""
    (folder / "graph.json").write_text(text, encoding="utf-8")
    return program.run(["run", "graph.json"], folder)


def check_refusals(rows, folder):
    """How many rows the program doesn't refuse as they say."""
    failed = 0
    for row in rows:
        status, out, err = refusal_of(text_of(row), folder)
        wanted = (STATUSES[row["says"].split()[1].rstrip(":")], "", row["says"])
        if (status, out, err) != wanted:
            print("failed: %s\n  wanted %s\n  found  %s" % (row["is"], wanted, (status, out, err)))
            failed += 1
    return failed


def check_schema(rows):
    """How many rows and examples the schema doesn't judge as it should; 0 where it can't be tried."""
    try:
        import jsonschema
    except ImportError:
        print("left out: the schema (python3-jsonschema isn't installed)")
        return 0
    schema = json.loads((program.TOP / "docs" / "graph.schema.json").read_text())
    jsonschema.Draft202012Validator.check_schema(schema)
    judge = jsonschema.Draft202012Validator(schema)
    failed = 0
    for row in rows:
        if row["schema"] is None:
            continue
        passes = judge.is_valid(json.loads(text_of(row)))
        if passes != (row["schema"] == "passes"):
            print("failed: the schema %s: %s" % ("passes" if passes else "refuses", row["is"]))
            failed += 1
    for example in sorted((program.TOP / "examples").glob("*.json")):
        for error in judge.iter_errors(json.loads(example.read_text())):
            print("failed: the schema refuses %s: %s" % (example.name, error.message))
            failed += 1
    return failed


def main():
    rows = json.loads((pathlib.Path(__file__).parent / "refusals.json").read_text())
    with tempfile.TemporaryDirectory() as folder:
        failed = check_refusals(rows, pathlib.Path(folder))
    failed += check_schema(rows)
    print("%s: %d refusals" % ("failed" if failed else "ok", len(rows)))
    return 1 if failed else 0


if __name__ == "__main__":
    sys.exit(main())
