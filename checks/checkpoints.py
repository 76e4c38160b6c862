"""Calls in a folder of their own, with what they leave there, for the checks of checkpoints and restarts."""

import concurrent.futures
import pathlib
import tempfile
import typing

import program

END = ".sstcpt"
PREFIX = "checkpoint_"
SHEET = "s.csv"
AT_ONCE = 4


class Left(typing.NamedTuple):
    """What a call leaves: its status, its output, its line, its statistics, and its checkpoints by their times in picoseconds."""

    status: int
    out: str
    err: str
    sheet: bytes
    saved: dict


def saved_in(folder):
    """The checkpoints that a call left in a folder."""
    files = pathlib.Path(folder).glob(PREFIX + "*" + END)
    return {int(file.name[len(PREFIX):-len(END)]): file.read_bytes() for file in files}


def call(words, name, given):
    """What a call leaves in a folder that has one file, of another name than a checkpoint's."""
    with tempfile.TemporaryDirectory() as folder:
        (pathlib.Path(folder) / name).write_bytes(given)
        status, out, err = program.run(words, folder)
        sheet = pathlib.Path(folder) / SHEET
        return Left(status, out, err, sheet.read_bytes() if sheet.exists() else b"", saved_in(folder))


def run(text, words):
    """What the run of a graph text leaves, with its statistics."""
    return call(["run", "g.json", "--stats=" + SHEET] + words, "g.json", text)


def restart(bytes_, words):
    """What a restart from the bytes of a checkpoint leaves, with its statistics."""
    return call(["restart", "from", "--stats=" + SHEET] + words, "from", bytes_)


def at_once(work, items):
    """What the work gives for each item, several at once."""
    with concurrent.futures.ThreadPoolExecutor(AT_ONCE) as pool:
        return list(pool.map(work, items))


def without_end(out):
    """An output without its final line."""
    return "".join(out.splitlines(True)[:-1])


def rest_of(whole, time, before):
    """What a restart from a run's checkpoint of a time has to leave, where so much was printed before; None where the run didn't
    print that first."""
    if not whole.out.startswith(before):
        return None
    later = {at: bytes_ for at, bytes_ in whole.saved.items() if at > time}
    return whole._replace(out=whole.out[len(before):], saved=later)


def difference(found, wanted):
    """In which of its fields a call left something else, in a few words."""
    if wanted is None:
        return "the output up to the checkpoint's time isn't a beginning of the run's"
    names = [name for name in Left._fields if getattr(found, name) != getattr(wanted, name)]
    told = ", ".join(names)
    if "saved" in names:
        times = sorted(at for at in set(found.saved) | set(wanted.saved) if found.saved.get(at) != wanted.saved.get(at))
        told += " (%d checkpoints, first at %d ps)" % (len(times), times[0])
    return "%s; status %d %s" % (told, found.status, found.err)
