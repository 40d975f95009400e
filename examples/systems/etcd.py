"""etcd: eight keys on three nodes, one of which fails for a while. usage: etcd.py PROGRAM FOLDER [RUNS]

It wants root, and Debian's packages etcd-server and iproute2. Several clients write a key at one time; revisions give their order.
"""
import base64
import itertools
import random

from clients import MANY, post, record
from harness import need, output, scratch, tabulate, wait_for
from nodes import FAILURES, connected

NODES, CLIENTS, KEYS, READS = 3, 6, 8, {"linearizable": False, "serializable": True}
WAYS = {f"{read} range, {failure}": (READS[read], FAILURES[failure]) for read in READS for failure in FAILURES}


class Client:
    """A client of one node, whose keys begin with a prefix."""

    def __init__(self, node, prefix, serializable):
        self.node, self.prefix, self.serializable = node, prefix, serializable

    def ask(self, call, **words):
        coded = {name: word if name == "serializable" else base64.b64encode(word.encode()).decode() for name, word in words.items()}
        return post(self.node.address, 2379, f"/v3/kv/{call}", coded)

    def update(self, key, value):
        return self.ask("put", key=f"{self.prefix}/{key}", value=str(value))["header"]["revision"]

    def view(self):
        # the character after a slash is 0
        found = self.ask("range", key=f"{self.prefix}/", range_end=f"{self.prefix}0", serializable=self.serializable).get("kvs", ())
        text = {it["mod_revision"]: [base64.b64decode(it[name]).decode() for name in ("key", "value")] for it in found}
        return {int(key.partition("/")[2]): (revision, value) for revision, (key, value) in text.items()}


def command(node, nodes, folder):
    peers, clients = {it.number: f"http://{it.peer}:2380" for it in nodes}, f"http://{node.address}:2379"
    peer, every = peers[node.number], ",".join(f"{number}={url}" for number, url in peers.items())
    words = [f"--name={node.number}", f"--data-dir={folder}/{node.number}", "--heartbeat-interval=50", "--election-timeout=250"]
    words += [f"--listen-peer-urls={peer}", f"--initial-advertise-peer-urls={peer}", f"--initial-cluster={every}"]
    return [need("etcd"), *words, f"--listen-client-urls={clients}", f"--advertise-client-urls={clients}"]


def main():
    version, prefixes = output([need("etcd"), "--version"]).splitlines()[0], map("run{}".format, itertools.count())
    with connected(NODES) as nodes, scratch() as folder:
        for node in nodes:
            node.start(command(node, nodes, folder))

        def history(way, seed):
            (serializable, fail), prefix = WAYS[way], next(prefixes)
            wait_for(nodes[0].running, lambda: [Client(node, "any", False).update(0, seed) for node in nodes])
            clients = [Client(nodes[place % NODES], prefix, serializable) for place in range(CLIENTS)]
            return record(clients, KEYS, seed, lambda: fail(random.Random(f"{way} {seed}").choice(nodes)))

        tabulate(version.replace(" Version:", ""), WAYS, history, MANY)


main()
