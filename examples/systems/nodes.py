"""Nodes of a cluster on one machine, each in a network namespace of its own, and what may happen to them. It wants root and iproute2.

A node has two links: one leads over a bridge to the other nodes, the other to its clients. So a node that is cut off from the other
nodes still answers clients.
"""
import contextlib
import os
import signal
import subprocess
import sys
import time

from harness import SKIPPED, need


def ip(*words):
    subprocess.run([need("ip"), *map(str, words)], stdin=subprocess.DEVNULL, capture_output=True, check=True)


class Node:
    """A node, numbered from 1 on. Other nodes reach it at `peer`, clients at `address`."""

    def __init__(self, number, switch):
        self.number, self.switch, self.running = number, switch, None
        self.peer, self.address = f"10.77.0.{number}", f"10.77.{number}.1"
        self.name, self.link = f"{switch}-{number}", f"{switch}-{number}"

    def connect(self):
        ip("link", "add", self.link, "type", "veth", "peer", "name", "clients", "netns", self.name)
        ip("address", "add", f"10.77.{self.number}.2/30", "dev", self.link)
        ip("link", "set", self.link, "up")
        ip("-n", self.switch, "link", "add", self.link, "type", "veth", "peer", "name", "peers", "netns", self.name)
        ip("-n", self.switch, "link", "set", self.link, "master", "bridge", "up")
        ip("-n", self.name, "link", "set", "lo", "up")
        for link, address in ("peers", f"{self.peer}/24"), ("clients", f"{self.address}/30"):
            ip("-n", self.name, "address", "add", address, "dev", link)
            ip("-n", self.name, "link", "set", link, "up")

    def start(self, command):
        """Starts what runs on the node; the system kills it if this program is killed."""
        none = subprocess.DEVNULL
        inside = [need("ip"), "netns", "exec", self.name, need("setpriv"), "--pdeathsig", "KILL", *command]
        self.command, self.running = command, subprocess.Popen(inside, stdin=none, stdout=none, stderr=none, start_new_session=True)

    def signal(self, number):
        os.killpg(self.running.pid, number)

    def end(self):
        """Kills what runs on the node."""
        if self.running is not None:
            self.signal(signal.SIGKILL)
            self.running.wait()



@contextlib.contextmanager
def namespace(name):
    """A network namespace until the block ends; its links go with it."""
    ip("netns", "add", name)
    try:
        yield
    finally:
        ip("netns", "delete", name)


@contextlib.contextmanager
def connected(count):
    """Nodes that reach one another until the block ends."""
    if os.geteuid() != 0:
        print("skipped: network namespaces need root")
        sys.exit(SKIPPED)
    signal.signal(signal.SIGTERM, lambda number, _: sys.exit(128 + number))
    switch = f"snap{os.getpid() % 10**7}"
    nodes = [Node(number, switch) for number in range(1, count + 1)]
    with contextlib.ExitStack() as stack:
        for name in (switch, *(node.name for node in nodes)):
            stack.enter_context(namespace(name))
        ip("-n", switch, "link", "add", "bridge", "type", "bridge")
        ip("-n", switch, "link", "set", "bridge", "up")
        for node in nodes:
            node.connect()
            stack.callback(node.end)
        yield nodes


SECONDS = 0.8  # how long a failure takes


def left_alone(_node):
    time.sleep(SECONDS)


def killed(node):
    node.end()
    time.sleep(SECONDS)
    node.start(node.command)


def stopped(node):
    node.signal(signal.SIGSTOP)
    time.sleep(SECONDS)
    node.signal(signal.SIGCONT)


def cut_off(node):
    ip("-n", node.switch, "link", "set", node.link, "down")
    time.sleep(SECONDS)
    ip("-n", node.switch, "link", "set", node.link, "up")


FAILURES = {"no failure": left_alone, "a node killed": killed, "a node stopped": stopped, "a node cut off": cut_off}
