"""Checks what restarts say of checkpoints that were changed. Each row of checks/damages.json changes one of the checkpoints below, which
the program puts, and says the status and the line; behind it each beginning of one of them is tried."""

import json
import pathlib
import sys

import checkpoints
import program

EXAMPLES = program.TOP / "examples"

TICKER = b'{"components":[{"name":"t","type":"core.ticker","params":{"clock":"2ns","count":2}}]}'

# What is saved: a graph text, and the time in nanoseconds. In order of the form, behind the graph text:
# - pair: 16 bytes of the pinger, 4 of the number of events, and one event of 17 bytes;
# - ticker: 4 bytes of its ticks, 4 of the number of events, and its tick, of 13 bytes;
# - network: 82 bytes of the router (two ports of 37, two turns of 4), 53 of each endpoint, 4 of the number of events, two credits of
#   19 bytes each, and two packets of 52.
SAVED = {
    "pair": ((EXAMPLES / "checkpoint.json").read_bytes(), 5),
    "ticker": (TICKER, 1),
    "network": ((EXAMPLES / "single_router.json").read_bytes(), 25),
}

# Where the fields of the checkpoint of the pair begin: two words of the head are the letters and the number of the form, which are one.
FIELDS = [0, 8, 16, 24, 28, 292, 296, 300, 308, 312, 320, 321, 325]


def save(name):
    """A checkpoint that the program puts."""
    text, time = SAVED[name]
    left = checkpoints.run(text, ["--checkpoint-at=%dns" % time])
    if list(left.saved) != [1000 * time]:
        raise ValueError("%s isn't saved: status %d %s" % (name, left.status, left.err))
    return left.saved[1000 * time]


def place(bytes_, at):
    """An offset: from the beginning, from the end of the graph text (`body`), or from the end (`end`)."""
    where, distance = at
    size = int.from_bytes(bytes_[24:28], "big")
    return {"head": 0, "body": 28 + size, "end": len(bytes_)}[where] + distance


def changed(bytes_, changes):
    """The bytes with changes, each of which finds its place in what the ones before it made."""
    for change in changes:
        if "put" in change:
            at, put = place(bytes_, change["at"]), bytes.fromhex(change["put"])
            bytes_ = bytes_[:at] + put + bytes_[at + len(put):]
        elif "add" in change:
            at = place(bytes_, change["at"])
            bytes_ = bytes_[:at] + bytes.fromhex(change["add"]) + bytes_[at:]
        elif "text" in change:
            old, new = (text.encode() for text in change["text"])
            if len(old) != len(new) or old not in bytes_:
                raise ValueError("no %s" % old)
            bytes_ = bytes_.replace(old, new, 1)
        else:
            bytes_ = bytes_[:len(bytes_) - change["cut"]]
    return bytes_


def rows():
    """What is tried: in words, the bytes, and the status and the line that are to be answered."""
    saved = {name: save(name) for name in SAVED}
    for row in json.loads((pathlib.Path(__file__).parent / "damages.json").read_text()):
        wanted = (5, "sst: checkpoint: " + row["says"]) if row["says"] else (0, "")
        yield "%s: %s" % (row["of"], row["is"]), changed(saved[row["of"]], row["changes"]), wanted
    for length in range(len(saved["pair"])):
        begun = max(at for at in FIELDS if at <= length)
        yield "pair: %d bytes of it" % length, saved["pair"][:length], (5, "sst: checkpoint: Short at %d" % begun)


def main():
    def tried(row):
        what, bytes_, wanted = row
        left = checkpoints.call(["restart", "from"], "from", bytes_)
        whole = left.out.endswith(" ps\n") if wanted[0] == 0 else left.out == ""
        return None if (left.status, left.err) == wanted and whole else "failed: %s\n  wanted %s\n  found  %s" % (what, wanted, (left.status, left.err))

    results = checkpoints.at_once(tried, rows())
    for fault in filter(None, results):
        print(fault)
    failed = any(results)
    print("%s: %d changed checkpoints" % ("failed" if failed else "ok", len(results)))
    return 1 if failed else 0


if __name__ == "__main__":
    sys.exit(main())
