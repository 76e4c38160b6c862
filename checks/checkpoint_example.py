"""Does what docs/CHECKPOINTS.md shows: takes the graph and the bytes from its blocks, compares them with examples/, runs each command of
its worked example in a folder of its own, and compares what the commands print and the checkpoint that is put."""

import pathlib
import re
import sys
import tempfile

import program

DOCUMENT = program.TOP / "docs" / "CHECKPOINTS.md"
EXAMPLES = program.TOP / "examples"
GRAPH = "checkpoint.json"
CHECKPOINT = "checkpoint_5000.sstcpt"


def blocks(kind):
    """The texts of the document's blocks of a kind, each with its line end."""
    return re.findall(r"^```%s\n(.*?)^```$" % kind, DOCUMENT.read_text(), re.MULTILINE | re.DOTALL)


def graph_text():
    """The graph of the document: a line without its line end."""
    (text,) = blocks("json")
    return text.rstrip("\n").encode()


def dumped():
    """The bytes of the document's dump: each line has the offset of its first byte, its bytes, and behind `;` what they are."""
    (dump,) = blocks("hex")
    bytes_ = b""
    for line in dump.splitlines():
        offset, *pairs = line.split(";")[0].split()
        if int(offset) != len(bytes_):
            raise ValueError("the dump goes on at %d, not at %s" % (len(bytes_), offset))
        bytes_ += bytes.fromhex("".join(pairs))
    return bytes_


def commands():
    """Each command of the document's sessions, as words, with what it prints."""
    for session in blocks("console"):
        for shown in re.split(r"^\$ ", session, flags=re.MULTILINE)[1:]:
            command, _, printed = shown.partition("\n")
            yield command.split(), printed


def main():
    faults = []
    text, bytes_ = graph_text(), dumped()
    if text != (EXAMPLES / GRAPH).read_bytes():
        faults.append("the graph isn't examples/" + GRAPH)
    if bytes_ != (EXAMPLES / CHECKPOINT).read_bytes():
        faults.append("the dump isn't examples/" + CHECKPOINT)
    count = 0
    with tempfile.TemporaryDirectory() as name:
        folder = pathlib.Path(name)
        (folder / "examples").mkdir()
        (folder / "examples" / GRAPH).write_bytes(text)
        for words, printed in commands():
            count += 1
            status, out, err = program.run(words[1:], folder)
            if words[0] != "./sst" or (status, out, err) != (0, printed, ""):
                faults.append("%s: status %d %s\n%s" % (" ".join(words), status, err, out))
        saved = folder / CHECKPOINT
        if not saved.exists() or saved.read_bytes() != bytes_:
            faults.append("the checkpoint that is put isn't the dump")
    for fault in faults:
        print("failed: docs/CHECKPOINTS.md: " + fault)
    print("%s: a checkpoint of %d bytes, %d commands" % ("failed" if faults else "ok", len(bytes_), count))
    return 1 if faults else 0


if __name__ == "__main__":
    sys.exit(main())
