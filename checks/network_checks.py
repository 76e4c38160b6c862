"""Checks networks in graphs against the program: every topology in several shapes is accepted; without one of its links, or with two
links' right ends exchanged, it is refused with the place of the first port that doesn't lead where it should. And each parameter
and each check of a whole network is refused with its line."""

import copy
import json
import pathlib
import sys
import tempfile

import networks
import program

SHAPES = [
    networks.single(2),
    networks.single(5),
    networks.mesh([5]),
    networks.mesh([3, 2]),
    networks.mesh([2, 2], 3),
    networks.mesh([2, 3, 2]),
    networks.torus([3]),
    networks.torus([4, 4]),
    networks.torus([2, 3], 2),
    networks.torus([2, 2, 2, 2]),
    networks.fattree("4"),
    networks.fattree("2,2:4"),
    networks.fattree("2,1:3"),
    networks.fattree("2,2:2,1:2"),
]


def check(graph, folder):
    """What `sst check` answers: its status, and its line."""
    (folder / "g.json").write_text(json.dumps(graph))
    status, out, err = program.run(["check", "g.json"], folder)
    return status, err or out.rstrip("\n")


def accepted(graph):
    return 0, "graph accepted: %d components, %d links" % (len(graph["components"]), len(graph["links"]))


def refused(fault):
    return (4, "sst: limit: " + fault) if fault.startswith("ports ") else (3, "sst: graph: " + fault)


def without(graph, n):
    """The graph without link n."""
    graph = copy.deepcopy(graph)
    del graph["links"][n]
    return graph


def exchanged(graph, n):
    """The graph with the right ends of links n and n + 1 exchanged."""
    graph = copy.deepcopy(graph)
    one, two = graph["links"][n], graph["links"][n + 1]
    one["right"], two["right"] = two["right"], one["right"]
    return graph


def broken(shape):
    """A shape's graph, and it with each link in turn broken, with what is to be answered."""
    graph = networks.graph_of(shape)
    yield graph, accepted(graph)
    count = len(graph["links"])
    for other in [without(graph, n) for n in range(count)] + [exchanged(graph, n) for n in range(count - 1)]:
        fault = networks.fault_of(shape, other)
        yield other, refused(fault) if fault else accepted(other)


ROUTER, ENDPOINT = 0, 6

# What is wrong with one parameter of a mesh's first router, or of its first endpoint.
PARAMS = [
    (ROUTER, "id", [None, "", "x", "-1", "01", "4294967296"]),
    (ROUTER, "topology", [None, "merlin.dragonfly", "mesh"]),
    (ROUTER, "topology.shape", [None, "", "3x", "x2", "3x1", "3x257", "03x2", "2x2x2x2x2", "256x256x2", "3X2"]),
    (ROUTER, "topology.local_ports", ["0", "256", "x"]),
    (ROUTER, "num_vns", ["0", "9", "x"]),
    (ROUTER, "flit_size", ["", "8", "0B", "8parsecs"]),
    (ROUTER, "link_bw", [None, "8GB", "0GB/s", "1.5b/s"]),
    (ROUTER, "xbar_bw", [None, "8GB", "0GB/s"]),
    (ROUTER, "input_buf_size", [None, "7B", "8389000B", "8"]),
    (ROUTER, "output_buf_size", [None, "7B", "8389000B", "x"]),
    (ROUTER, "xbar_arb", ["rr", "merlin.xbar_arb_x"]),
    (ENDPOINT, "id", [None, "x", "4294967296"]),
    (ENDPOINT, "num_peers", [None, "1", "4097", "x"]),
    (ENDPOINT, "num_messages", ["1000001", "x"]),
    (ENDPOINT, "message_size", ["8", "0B", "x"]),
    (ENDPOINT, "num_vns", ["0", "9"]),
    (ENDPOINT, "flit_size", ["8", "0B"]),
    (ENDPOINT, "link_bw", [None, "8GB"]),
    (ENDPOINT, "input_buf_size", [None, "7B", "8389000B"]),
    (ENDPOINT, "output_buf_size", [None, "7B", "8389000B"]),
    (ENDPOINT, "verbose", ["yes", "1"]),
]

# Parameters of single components that are in their ranges, and don't fit the network, or each other, in a mesh of 3x2.
FAULTS = [
    ("a number of flits that lasts too long on the line", ROUTER, {"link_bw": "1b/s"}, "input_buf_size"),
    ("a number of flits that lasts too long through the crossbar", ROUTER, {"xbar_bw": "1b/s"}, "input_buf_size"),
    ("an output queue that lasts too long on the line", ROUTER, {"link_bw": "64kb/s", "output_buf_size": "16kB"}, "output_buf_size"),
    ("an endpoint's line that is too slow", ENDPOINT, {"link_bw": "1b/s"}, "input_buf_size"),
    ("a shape that is judged with one endpoint at each router", ROUTER, {"topology.shape": "3", "topology.local_ports": "0"}, "topology.local_ports"),
    ("a router of another topology", 1, {"topology": "merlin.torus"}, "topology"),
    ("a router of another shape", 1, {"topology.shape": "2x3"}, "topology.shape"),
    ("a router with another number of endpoints", 1, {"topology.local_ports": 2}, "topology.local_ports"),
    ("a router with other virtual networks", 1, {"num_vns": 3}, "num_vns"),
    ("a router with other flits", 1, {"flit_size": "16B"}, "flit_size"),
    ("a router's number that is too high", 5, {"id": 6}, "id"),
    ("two routers of one number", 5, {"id": 4}, "id"),
    ("the shape before the number of virtual networks", 1, {"topology.shape": "2x3", "num_vns": 3}, "topology.shape"),
    ("the flits before the router's number", 1, {"flit_size": "16B", "id": 0}, "flit_size"),
    ("an endpoint's number that is too high", ENDPOINT, {"id": 6}, "id"),
    ("two endpoints of one number", ENDPOINT + 1, {"id": 0}, "id"),
    ("another number of peers", ENDPOINT, {"num_peers": 5}, "num_peers"),
    ("an endpoint with other virtual networks", ENDPOINT, {"num_vns": 1}, "num_vns"),
    ("an endpoint with other flits", ENDPOINT, {"flit_size": "4B"}, "flit_size"),
    ("a message larger than the least queue", ENDPOINT, {"message_size": "1025B"}, "message_size"),
    ("a message larger than another endpoint's queue", ENDPOINT + 1, {"output_buf_size": "56B"}, None),
    ("the endpoint's number before its peers", ENDPOINT, {"id": 6, "num_peers": 5}, "id"),
]

SAME = ["8 B", "64b"]

# What is wrong with one parameter of a mesh's first generator of traffic.
GENERATOR_PARAMS = [
    ("id", [None, "x", "4294967296"]),
    ("num_peers", [None, "1", "4097", "x"]),
    ("pattern", [None, "", "Uniform", "merlin.uniform", "random"]),
    ("packets", ["1000001", "x", "-1", "01"]),
    ("packet_size", ["8", "0B", "x", ""]),
    ("vn", ["2", "x", "01", "-1"]),
    ("seed", ["x", "", "01", "18446744073709551616"]),
    ("num_vns", ["0", "9", "x"]),
    ("flit_size", ["8", "0B"]),
    ("link_bw", [None, "8GB"]),
    ("input_buf_size", [None, "7B", "8389000B"]),
    ("output_buf_size", [None, "7B", "8389000B"]),
]

# Parameters of a generator that are judged together, or don't fit the mesh of 3x2, with the one that is named.
GENERATOR_FAULTS = [
    ("the pattern before the number of packets", {"pattern": "x", "packets": "x"}, "pattern"),
    ("the number of peers before the pattern", {"num_peers": "1", "pattern": "x"}, "num_peers"),
    ("a network below a number that is none", {"vn": 2, "num_vns": "x"}, "vn"),
    ("a number of networks that is none, behind a network below 2", {"vn": 1, "num_vns": "x"}, "num_vns"),
    ("a network that isn't below the number of networks", {"vn": 1, "num_vns": 1}, "vn"),
    ("a network that would be there in another's network", {"vn": 2, "num_vns": 3}, "num_vns"),
    ("the network before the seed", {"vn": "x", "seed": "x"}, "vn"),
    ("the seed before the hot endpoint", {"pattern": "hotspot", "seed": "x", "hot": "x"}, "seed"),
    ("a hot endpoint that isn't a number", {"pattern": "hotspot", "hot": "x"}, "hot"),
    ("a hot endpoint that isn't there", {"pattern": "hotspot", "hot": 6}, "hot"),
    ("a hot endpoint below its own number of peers", {"pattern": "hotspot", "hot": 6, "num_peers": 7}, "num_peers"),
    ("the hot endpoint before the networks", {"pattern": "hotspot", "hot": 6, "num_vns": "x"}, "hot"),
    ("a line that is too slow", {"link_bw": "1b/s"}, "input_buf_size"),
    ("an endpoint's number that is too high", {"id": 6}, "id"),
    ("an endpoint's number that is another's", {"id": 1}, None),
    ("another number of peers", {"num_peers": 5}, "num_peers"),
    ("other flits", {"flit_size": "4B"}, "flit_size"),
    ("a packet larger than the least queue", {"packet_size": "1025B"}, "packet_size"),
    ("rows and columns of six endpoints", {"pattern": "transpose"}, "pattern"),
    ("the packet's size before the pattern's shape", {"pattern": "transpose", "packet_size": "1025B"}, "packet_size"),
]

# Parameters of generators that may be.
GENERATOR_MAY = [
    {"pattern": "complement", "packets": 0},
    {"pattern": "tornado", "packets": 1000000, "packet_size": "1KiB"},
    {"pattern": "hotspot", "hot": 5},
    {"pattern": "hotspot"},
    {"pattern": "uniform", "hot": "x", "seed": "18446744073709551615", "vn": 1},
]


def mesh(index, params, kind="merlin.test_nic"):
    """A mesh of 3x2 with other parameters of component `index`; `None` leaves one out."""
    graph = networks.graph_of(networks.mesh([3, 2]), kind=kind)
    own = graph["components"][index]["params"]
    for name, value in params.items():
        if value is None:
            del own[name]
        else:
            own[name] = value
    return graph


def param_rows():
    for index, name, values in PARAMS:
        for value in values:
            yield "%s %r" % (name, value), mesh(index, {name: value}), refused("Param components[%d].params.%s" % (index, name))
    for what, index, params, name in FAULTS:
        if name is None:
            yield what, mesh(index, params), refused("Param components[%d].params.message_size" % ENDPOINT)
        else:
            yield what, mesh(index, params), refused("Param components[%d].params.%s" % (index, name))
    for value in SAME:
        graph = mesh(1, {"flit_size": value})
        yield "a flit size of equal value, %s" % value, graph, accepted(graph)


def generator_rows():
    """A mesh whose endpoints generate traffic."""
    def changed(params):
        return mesh(ENDPOINT, params, "merlin.trafficgen")

    def at(index, name):
        return refused("Param components[%d].params.%s" % (index, name))

    for name, values in GENERATOR_PARAMS:
        for value in values:
            yield "a generator's %s %r" % (name, value), changed({name: value}), at(ENDPOINT, name)
    for what, params, name in GENERATOR_FAULTS:
        yield "a generator: " + what, changed(params), at(ENDPOINT, name) if name else at(ENDPOINT + 1, "id")
    for params in GENERATOR_MAY:
        graph = changed(params)
        yield "a generator of %r" % params, graph, accepted(graph)
    square = networks.graph_of(networks.torus([2, 2]), {"pattern": "transpose"}, kind="merlin.trafficgen")
    yield "rows and columns of four endpoints", square, accepted(square)
    square["components"][4]["statistics"] = [{"name": name} for name in ("sent", "received", "latency", "out_of_order")]
    yield "all statistics of a generator", square, accepted(square)
    asked = copy.deepcopy(square)
    asked["components"][4]["statistics"] = [{"name": "roundtrip"}]
    yield "a statistic that a generator hasn't", asked, refused("Param components[4].statistics[0]")
    mixed = copy.deepcopy(square)
    test = networks.graph_of(networks.torus([2, 2]))["components"][4]
    mixed["components"][4] = test
    yield "a test endpoint among generators", mixed, accepted(mixed)
    named = copy.deepcopy(square)
    named["links"][-1]["left"]["port"] = "port"
    yield "a generator's port of another name", named, refused("UnknownPort links[%d].left.port" % (len(named["links"]) - 1))
    alone = without(square, len(square["links"]) - 1)
    yield "a generator without a link", alone, refused("PortUnlinked components[7].rtr")


def added(graph, components=(), links=()):
    graph = copy.deepcopy(graph)
    graph["components"] += components
    for ends in links:
        graph["links"].append(networks.link(len(graph["links"]), *ends))
    return graph


def other_rows():
    """Graphs that aren't one network, or name what isn't there."""
    pair = networks.graph_of(networks.single(2))
    nics = dict(pair, components=pair["components"][1:], links=[networks.link(0, ("nic0", "rtr"), ("nic1", "rtr"))])
    yield "endpoints without a router", nics, refused("Miswired components[0].rtr")
    echo = {"name": "e", "type": "core.echo"}
    crossed = copy.deepcopy(pair)
    crossed["components"].append(echo)
    crossed["links"][1]["right"] = {"component": "e", "port": "port", "latency": "10ns"}
    yield "an endpoint at an echo", crossed, refused("Protocol links[1]")
    named = copy.deepcopy(pair)
    named["links"][1]["right"]["port"] = "port2"
    yield "a router's port past its last", named, refused("UnknownPort links[1].right.port")
    named = copy.deepcopy(pair)
    named["links"][0]["left"]["port"] = "port"
    yield "an endpoint's port of another name", named, refused("UnknownPort links[0].left.port")
    named = copy.deepcopy(pair)
    named["links"][1]["right"]["port"] = "port01"
    yield "a router's port with a leading 0", named, refused("UnknownPort links[1].right.port")
    wide = networks.graph_of(networks.mesh([2, 2]), router={"topology.local_ports": 255})
    yield "a router of 259 ports", dict(wide, links=[]), refused("ports 259")
    asked = copy.deepcopy(pair)
    asked["components"][0]["statistics"] = [{"name": "received"}]
    yield "a statistic that a router hasn't", asked, refused("Param components[0].statistics[0]")
    asked = copy.deepcopy(pair)
    asked["components"][2]["statistics"] = [{"name": "latency"}, {"name": "latency"}]
    yield "a statistic asked for twice", asked, refused("Param components[2].statistics[1]")
    big = networks.graph_of(networks.single(2), endpoint={"message_size": "64B"}, router={"input_buf_size": "56B"})
    yield "a message larger than a router's queue", big, refused("Param components[1].params.message_size")
    single = json.loads((program.TOP / "examples" / "single_router.json").read_text())
    single["components"][1]["params"]["message_size"] = "72B"
    yield "a message of nine flits for queues of eight", single, refused("Param components[1].params.message_size")
    tree = networks.graph_of(networks.fattree("2,2:4"))
    tree["components"][0]["params"]["id"] = 6
    yield "a fat tree's router whose number is too high", tree, refused("Param components[0].params.id")
    edge = networks.graph_of(networks.mesh([2]))
    edge["links"].append(networks.link(9, ("rtr0", "port1"), ("rtr1", "port0")))
    yield "a mesh's edge that is linked", edge, refused("Miswired components[0].port1")
    beside = added(pair, [{"name": "p", "type": "core.pinger"}, echo], [(("p", "port"), ("e", "port"))])
    yield "a pinger and an echo beside a network", beside, accepted(beside)


def main():
    failed = tried = 0
    with tempfile.TemporaryDirectory() as name:
        folder = pathlib.Path(name)
        rows = [("%s %s" % (shape.kind, shape.shape), graph, wanted) for shape in SHAPES for graph, wanted in broken(shape)]
        for what, graph, wanted in rows + list(param_rows()) + list(generator_rows()) + list(other_rows()):
            tried += 1
            found = check(graph, folder)
            if found != wanted:
                print("failed: %s\n  wanted %s\n  found  %s" % (what, wanted, found))
                failed += 1
    print("%s: %d networks" % ("failed" if failed else "ok", tried))
    return 1 if failed else 0


if __name__ == "__main__":
    sys.exit(main())
