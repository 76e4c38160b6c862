"""Runs 200 small graphs, made from a number, and the networks of examples/, in parts, and compares each with its run in one part,
byte for byte: the output, and the statistics that are stored. Components, latencies and clocks of the small graphs are chosen by
the words of SplitMix64."""

import json
import pathlib
import sys
import tempfile

import program

MASK = (1 << 64) - 1
HOW = ["linear", "roundrobin", "latency", "self", "single"]
PORTS = ["in%d" % i for i in range(4)]
NETWORKS = ["single_router", "traffic", "mesh", "torus", "fattree"]


class Words:
    """The words of SplitMix64 from a number on."""

    def __init__(self, number):
        self.state = number & MASK

    def below(self, n):
        self.state = (self.state + 0x9E3779B97F4A7C15) & MASK
        z = self.state
        z = ((z ^ (z >> 30)) * 0xBF58476D1CE4E5B9) & MASK
        z = ((z ^ (z >> 27)) * 0x94D049BB133111EB) & MASK
        return (z ^ (z >> 31)) % n

    def among(self, items):
        return items[self.below(len(items))]


def latency(words):
    return "%dps" % (1 + words.below(words.among([3, 1000, 4000])))


def link(words, name, left, right):
    end = lambda at: {"component": at[0], "port": at[1], "latency": latency(words)}
    return {"name": name, "left": end(left), "right": end(right)}


def graph_of(number):
    """Pairs of a pinger and an echo, and tickers that send to each other."""
    words = Words(number)
    components, links = [], []
    thread = lambda: {"thread": words.below(3)}
    for i in range(words.below(3)):
        ping = {"name": "p%d" % i, "type": "core.pinger", "params": {"count": 1 + words.below(5)}, "partition": thread()}
        echo = {"name": "e%d" % i, "type": "core.echo", "params": {"delay": "%dps" % words.below(1500)}, "partition": thread()}
        if words.below(2):
            ping["statistics"] = [{"name": "roundtrip"}]
        if words.below(2):
            echo["statistics"] = [{"name": "received"}]
        components += [ping, echo]
        links.append(link(words, "w%d" % i, ("p%d" % i, "port"), ("e%d" % i, "port")))
    tickers = 1 + words.below(6)
    free = {"t%d" % i: list(PORTS) for i in range(tickers)}
    for i in range(tickers):
        params = {"count": words.below(6), "clock": words.among(["1ns", "2ns", "1500ps", "700ps", "%dps" % (200 + words.below(3000))])}
        if words.below(4) == 0:
            params["primary"] = False
        ticker = {"name": "t%d" % i, "type": "core.ticker", "params": params, "partition": thread()}
        if words.below(2):
            ticker["statistics"] = [{"name": "events", "type": "sst.HistogramStatistic", "params": {"minvalue": 0, "binwidth": 2, "numbins": 3}}]
        components.append(ticker)
    for i in range(tickers):
        to = words.among(["t%d" % j for j in range(tickers)])
        if free[to] and words.below(5):
            links.append(link(words, "x%d" % i, ("t%d" % i, "out"), (to, free[to].pop(words.below(len(free[to]))))))
    options = {"exit-period": words.among(["1us", "5ns", "3ns", "1ps", "777ps"])}
    if words.below(3) == 0:
        options["stop-at"] = "%dps" % words.below(12000)
    order = sorted(range(len(components)), key=lambda c: words.below(1 << 30))
    return {"program_options": options, "components": [components[c] for c in order], "links": links}


def left_by(words, folder):
    """What a call prints and stores, and its status."""
    sheet = pathlib.Path(folder) / "s.csv"
    sheet.unlink(missing_ok=True)
    status, out, err = program.run(["run", "g.json", "--stats=s.csv"] + words, folder)
    return status, out, err, sheet.read_bytes() if sheet.exists() else b""


def spreads(count):
    for parts in range(1, min(4, count) + 1):
        for how in HOW:
            if how != "self" or parts >= 3:
                yield ["--parts=%d" % parts, "--partitioner=" + how, "--threads=%d" % (1 + parts % 3)]
    for threads in (2, 4):
        yield ["--threads=%d" % threads]


def graphs():
    """The graphs, each with its name."""
    for number in range(200):
        yield "graph %d" % number, graph_of(number)
    for name in NETWORKS:
        graph = json.loads((program.TOP / "examples" / (name + ".json")).read_text())
        for i, component in enumerate(graph["components"]):
            component["partition"] = {"thread": i * 7 % 3}
        yield name, graph


def main():
    failed = runs = 0
    for name, graph in graphs():
        with tempfile.TemporaryDirectory() as folder:
            (pathlib.Path(folder) / "g.json").write_text(json.dumps(graph))
            wanted = left_by([], folder)
            if wanted[0] != 0:
                print("failed: %s: %s" % (name, wanted[2]))
                failed += 1
                continue
            for words in spreads(len(graph["components"])):
                runs += 1
                if left_by(words, folder) != wanted:
                    print("failed: %s with %s" % (name, " ".join(words)))
                    failed += 1
    print("%s: 200 graphs and %d networks, %d runs in parts" % ("failed" if failed else "ok", len(NETWORKS), runs))
    return 1 if failed else 0


if __name__ == "__main__":
    sys.exit(main())
