"""Saves runs at every nanosecond and goes on from each checkpoint in one, two and three parts, by each partitioner, with the same
stop time. What was printed before the checkpoint and what the restart prints are the run's output, the statistics are the
run's, and the later checkpoints are the run's byte for byte. The graphs are networks of examples/, and small graphs of core kinds."""

import json
import sys

import checkpoints
import parts_checks
import program

PERIOD = "--checkpoint-period=1ns"
SMALL = 20

# Each network of examples/ with the words of its run, and at how many nanoseconds from 1 on a checkpoint is put.
NETWORKS = [("single_router", [], 50), ("torus", ["--stop-at=100ns"], 99)]

ACCUMULATORS = {"merlin.hr_router": ["sent"], "merlin.test_nic": ["sent", "received", "out_of_order"]}
LATENCY = {"name": "latency", "type": "sst.HistogramStatistic", "params": {"minvalue": 0, "binwidth": 20000, "numbins": 4}}


def network(name):
    """The text of a network whose components have all their statistics, and a thread below 2."""
    graph = json.loads((program.TOP / "examples" / (name + ".json")).read_text())
    for i, component in enumerate(graph["components"]):
        component["partition"] = {"thread": i * 7 % 3 % 2}
        component["statistics"] = [{"name": statistic} for statistic in ACCUMULATORS[component["type"]]]
        if component["type"] == "merlin.test_nic":
            component["statistics"].append(LATENCY)
    return json.dumps(graph).encode()


def spreads():
    yield ["--parts=1"]
    for parts in (2, 3):
        for how in parts_checks.HOW:
            yield ["--parts=%d" % parts, "--partitioner=" + how, "--threads=%d" % (1 + parts % 3)]


def befores(text, whole, stop):
    """What a run prints before each of its checkpoints: what it prints where it stops at that time."""
    def before(time):
        stopped = checkpoints.run(text, [word for word in stop if not word.startswith("--stop-at")] + ["--stop-at=%dps" % time])
        return checkpoints.without_end(stopped.out)

    times = sorted(whole.saved)
    return dict(zip(times, checkpoints.at_once(before, times)))


def wrong(name, whole, before, words, choices):
    """How many restarts, each from the checkpoint of a time with words for its parts, don't leave the rest."""
    def tried(choice):
        time, spread = choice
        found = checkpoints.restart(whole.saved[time], words + spread)
        wanted = checkpoints.rest_of(whole, time, before[time])
        return None if found == wanted else "failed: %s from %d ps with %s: %s" % (name, time, " ".join(spread), checkpoints.difference(found, wanted))

    faults = [fault for fault in checkpoints.at_once(tried, choices) if fault]
    for fault in faults[:20]:
        print(fault)
    return len(faults)


def in_networks():
    """How many restarts of networks there were, and how many failed."""
    count = failed = 0
    for name, stop, last in NETWORKS:
        text = network(name)
        words = stop + [PERIOD]
        whole = checkpoints.run(text, words)
        if whole.status != 0 or sorted(whole.saved) != [1000 * n for n in range(1, last + 1)]:
            print("failed: %s: status %d %s, %d checkpoints" % (name, whole.status, whole.err, len(whole.saved)))
            failed += 1
            continue
        before = befores(text, whole, stop)
        choices = [(time, spread) for time in sorted(whole.saved) for spread in spreads()]
        count += len(choices)
        failed += wrong(name, whole, before, words, choices)
    return count, failed


def in_small_graphs():
    """The same of small graphs, whose partitions change from checkpoint to checkpoint."""
    count = failed = 0
    for number in range(SMALL):
        graph = parts_checks.graph_of(number)
        text = json.dumps(graph).encode()
        whole = checkpoints.run(text, [PERIOD])
        if whole.status != 0:
            print("failed: graph %d: status %d %s" % (number, whole.status, whole.err))
            failed += 1
            continue
        ways = list(parts_checks.spreads(len(graph["components"])))
        choices = [(time, ways[(number + i) % len(ways)]) for i, time in enumerate(sorted(whole.saved))]
        count += len(choices)
        failed += wrong("graph %d" % number, whole, befores(text, whole, []), [PERIOD], choices)
    return count, failed


def between_events():
    """From 25 ns to 27 ns nothing happens at the single router: the two checkpoints differ in their times alone, and the second is put
    by a restart from the first before it has run anything. Without other options the restart prints the example's output."""
    text = (program.TOP / "examples" / "single_router.json").read_bytes()
    printed = (program.TOP / "examples" / "single_router.out").read_text()
    saved = checkpoints.run(text, ["--checkpoint-at=25ns"]).saved
    if list(saved) != [25000]:
        print("failed: single_router isn't saved at 25 ns")
        return 1
    found = checkpoints.restart(saved[25000], ["--parts=3", "--checkpoint-at=27ns"])
    later = saved[25000][:8] + (27000).to_bytes(8, "big") + saved[25000][16:]
    if (found.status, found.out, found.saved) != (0, printed, {27000: later}):
        print("failed: single_router from 25 ns by 27 ns: status %d %s" % (found.status, found.err))
        return 1
    return 0


def main():
    counts = [in_networks(), in_small_graphs(), (1, between_events())]
    failed = sum(count[1] for count in counts)
    print("%s: %d restarts" % ("failed" if failed else "ok", sum(count[0] for count in counts)))
    return 1 if failed else 0


if __name__ == "__main__":
    sys.exit(main())
