"""Networks after Merlin's as graphs: routers of one of four topologies, with an endpoint at each port that leads to one."""

import itertools


class Shape:
    """A topology as its routers and where their ports lead: ("router", id, port), ("host", id) or None for each port."""

    def __init__(self, kind, shape, local, peers):
        self.kind, self.shape, self.local, self.peers = kind, shape, local, peers

    def hosts(self):
        return sum(1 for ports in self.peers for peer in ports if peer and peer[0] == "host")

    def params(self):
        params = {"topology": "merlin." + self.kind}
        if self.shape is not None:
            params["topology.shape"] = self.shape
        if self.local is not None:
            params["topology.local_ports"] = self.local
        return params


def single(local):
    return Shape("singlerouter", None, local, [[("host", h) for h in range(local)]])


def grid(kind, sizes, local):
    """A mesh or a torus: port 2d leads up in dimension d, and port 2d + 1 down."""
    strides = [1]
    for size in sizes:
        strides.append(strides[-1] * size)
    peers = []
    for router in range(strides[-1]):
        ports = []
        for d, size in enumerate(sizes):
            at = router // strides[d] % size
            for step, back in ((1, 2 * d + 1), (-1, 2 * d)):
                to = at + step
                if kind == "torus" or 0 <= to < size:
                    ports.append(("router", router + (to % size - at) * strides[d], back))
                else:
                    ports.append(None)
        ports += [("host", router * local + h) for h in range(local)]
        peers.append(ports)
    return Shape(kind, "x".join(str(size) for size in sizes), local, peers)


def mesh(sizes, local=1):
    return grid("mesh", sizes, local)


def torus(sizes, local=1):
    return grid("torus", sizes, local)


def product(numbers):
    result = 1
    for n in numbers:
        result *= n
    return result


def fattree(text):
    """Level l has routers (l, g, r); down ports come before up ports."""
    levels = [tuple(int(n) for n in level.split(",")) for level in text.split(":")]
    down = [level[0] for level in levels]
    up = [level[1] if len(level) > 1 else 0 for level in levels]
    rows = [product(up[:l]) for l in range(len(levels))]
    groups = [product(down[l + 1:]) for l in range(len(levels))]
    first = [0] + list(itertools.accumulate(g * r for g, r in zip(groups, rows)))
    peers = []
    for l in range(len(levels)):
        for g, r in itertools.product(range(groups[l]), range(rows[l])):
            ports = []
            for j in range(down[l]):
                if l == 0:
                    ports.append(("host", g * down[0] + j))
                else:
                    below = first[l - 1] + (g * down[l] + j) * rows[l - 1] + r // up[l - 1]
                    ports.append(("router", below, down[l - 1] + r % up[l - 1]))
            for u in range(up[l]):
                above = first[l + 1] + g // down[l + 1] * rows[l + 1] + r * up[l] + u
                ports.append(("router", above, g % down[l + 1]))
            peers.append(ports)
    return Shape("fattree", text, None, peers)


def link(number, left, right):
    end = lambda at: {"component": at[0], "port": at[1], "latency": "10ns"}
    return {"name": "l%d" % number, "left": end(left), "right": end(right)}


# What an endpoint of each kind is asked to do.
WORK = {"merlin.test_nic": {"num_messages": 1}, "merlin.trafficgen": {"pattern": "uniform", "packets": 1}}


def graph_of(shape, endpoint=None, router=None, kind="merlin.test_nic"):
    """The graph of a shape: its routers, then its endpoints of a kind; the links of routers, then those of endpoints."""
    shared = {"num_vns": 2, "flit_size": "8B", "link_bw": "8GB/s", "input_buf_size": "1KiB", "output_buf_size": "1KiB"}
    hosts = shape.hosts()
    components = []
    for i in range(len(shape.peers)):
        params = dict({"id": i, "xbar_bw": "8GB/s"}, **shape.params(), **shared)
        components.append({"name": "rtr%d" % i, "type": "merlin.hr_router", "params": dict(params, **(router or {}))})
    for h in range(hosts):
        params = dict({"id": h, "num_peers": hosts}, **WORK[kind], **shared)
        components.append({"name": "nic%d" % h, "type": kind, "params": dict(params, **(endpoint or {}))})
    links, homes = [], []
    for i, ports in enumerate(shape.peers):
        for p, peer in enumerate(ports):
            here = ("rtr%d" % i, "port%d" % p)
            if peer and peer[0] == "router" and (i, p) < (peer[1], peer[2]):
                links.append((here, ("rtr%d" % peer[1], "port%d" % peer[2])))
            elif peer and peer[0] == "host":
                homes.append((("nic%d" % peer[1], "rtr"), here))
    return {"components": components, "links": [link(n, *ends) for n, ends in enumerate(links + homes)]}


def fault_of(shape, graph):
    """The first fault of the links of a graph of a shape, or None. An endpoint's port must be linked; then each router's ports in order
    lead to their peers, and each endpoint is at its router."""
    places = {c["name"]: i for i, c in enumerate(graph["components"])}
    ends = {}
    for item in graph["links"]:
        left, right = ((item[side]["component"], item[side]["port"]) for side in ("left", "right"))
        ends[left], ends[right] = right, left
    routers, hosts = len(shape.peers), shape.hosts()
    for h in range(hosts):
        if ("nic%d" % h, "rtr") not in ends:
            return "PortUnlinked components[%d].rtr" % places["nic%d" % h]
    for i in range(routers):
        for p, peer in enumerate(shape.peers[i]):
            to = ends.get(("rtr%d" % i, "port%d" % p))
            place = "components[%d].port%d" % (places["rtr%d" % i], p)
            wanted = peer and (("nic%d" % peer[1], "rtr") if peer[0] == "host" else ("rtr%d" % peer[1], "port%d" % peer[2]))
            if to is None and wanted is not None:
                return "PortUnlinked " + place
            if to != wanted:
                return "Miswired " + place
    return None
