"""Runs the first 200 ns of a 4x4 torus of test endpoints in two parts, saved at every nanosecond. Each checkpoint is the one that a run
in one part puts, and each restart, in two and in three parts, prints the rest, stores the run's statistics, and puts the run's last
checkpoint again."""

import json
import sys

import checkpoints

SIDE = 4
ROUTERS = SIDE * SIDE
LAST = 199
STOP = ["--stop-at=%dns" % (LAST + 1)]
SHARED = {"num_vns": 2, "flit_size": "8B", "link_bw": "8GB/s"}
BUFFERS = {"input_buf_size": "1KiB", "output_buf_size": "1KiB"}


def router(i):
    shape = {"id": i, "topology": "merlin.torus", "topology.shape": "%dx%d" % (SIDE, SIDE)}
    return {"name": "rtr%d" % i, "type": "merlin.hr_router", "params": {**shape, **SHARED, "xbar_bw": "8GB/s", **BUFFERS}}


def endpoint(i):
    work = {"id": i, "num_peers": ROUTERS, "num_messages": 4, "message_size": "40B"}
    statistics = [{"name": name} for name in ("sent", "received", "out_of_order")]
    return {"name": "nic%d" % i, "type": "merlin.test_nic", "params": {**work, **SHARED, **BUFFERS}, "statistics": statistics}


def link(number, left, right):
    end = lambda at: {"component": at[0], "port": at[1], "latency": "10ns"}
    return {"name": "l%d" % number, "left": end(left), "right": end(right)}


def text():
    """The text of the torus: routers, then endpoints; for each router its links up, along a row and along a column, then the endpoints'."""
    ends = []
    for i in range(ROUTERS):
        row, column = divmod(i, SIDE)
        ends.append((("rtr%d" % i, "port0"), ("rtr%d" % (row * SIDE + (column + 1) % SIDE), "port1")))
        ends.append((("rtr%d" % i, "port2"), ("rtr%d" % ((row + 1) % SIDE * SIDE + column), "port3")))
    ends += [(("nic%d" % i, "rtr"), ("rtr%d" % i, "port4")) for i in range(ROUTERS)]
    graph = {
        "program_options": {"exit-period": "10ms"},
        "components": [router(i) for i in range(ROUTERS)] + [endpoint(i) for i in range(ROUTERS)],
        "links": [link(n, *both) for n, both in enumerate(ends)],
    }
    return json.dumps(graph, separators=(",", ":")).encode()


def wrong_checkpoints(alone, parted):
    """How many checkpoints of the run in two parts aren't those of the run in one."""
    wanted = [1000 * n for n in range(1, LAST + 1)]
    if sorted(parted.saved) != wanted or (alone.status, parted.status) != (0, 0):
        print("failed: %d checkpoints; status %d %s" % (len(parted.saved), parted.status, parted.err))
        return 1
    if parted != alone:
        print("failed: two parts and one part: %s" % checkpoints.difference(parted, alone))
        return 1
    return 0


def wrong_restarts(parted):
    """How many restarts there were, and how many of them don't leave the rest."""
    whole = parted._replace(saved={1000 * LAST: parted.saved[1000 * LAST]})

    def tried(choice):
        time, parts = choice
        found = checkpoints.restart(parted.saved[time], STOP + ["--parts=%d" % parts, "--threads=2", "--checkpoint-at=%dns" % LAST])
        wanted = checkpoints.rest_of(whole, time, "")
        return None if found == wanted else "failed: from %d ps in %d parts: %s" % (time, parts, checkpoints.difference(found, wanted))

    choices = [(time, parts) for time in sorted(parted.saved) for parts in (2, 3)]
    faults = [fault for fault in checkpoints.at_once(tried, choices) if fault]
    for fault in faults[:20]:
        print(fault)
    return len(choices), len(faults)


def main():
    graph = text()
    words = STOP + ["--checkpoint-period=1ns"]
    alone, parted = (checkpoints.run(graph, words + ["--parts=%d" % parts]) for parts in (1, 2))
    failed = wrong_checkpoints(alone, parted)
    count = 0
    if failed == 0:
        count, failed = wrong_restarts(parted)
    print("%s: a torus saved %d times, %d restarts" % ("failed" if failed else "ok", len(parted.saved), count))
    return 1 if failed else 0


if __name__ == "__main__":
    sys.exit(main())
