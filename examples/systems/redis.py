"""Redis: 64 keys, read in five ways. usage: redis.py PROGRAM FOLDER [RUNS]; wants Debian's package redis-server"""
import socket

from harness import WORKERS, Board, need, output, record, scratch, server, tabulate

KEYS = 64  # 16 of each worker
SHORT, LONG = ([f"key {k:02}".ljust(size, ".") for k in range(KEYS)] for size in (6, 5000))
WAYS = {  # the keys, and the commands of a view: those of one batch are sent at once
    "MGET": (SHORT, [[["MGET", *SHORT]]]),
    "MULTI": (SHORT, [[["MULTI"], *(["GET", key] for key in SHORT), ["EXEC"]]]),
    "a Lua script": (SHORT, [[["EVAL", "return redis.call('MGET', unpack(KEYS))", KEYS, *SHORT]]]),
    "GETs one by one": (SHORT, [[["GET", key]] for key in SHORT]),
    "pipelined GETs of 5 kB keys": (LONG, [[["GET", key] for key in LONG]]),
}


def packed(command):
    words = [str(word).encode() for word in command]
    return b"*%d\r\n" % len(words) + b"".join(b"$%d\r\n%s\r\n" % (len(word), word) for word in words)


class Client(Board):
    def __init__(self, keys=(), batches=()):
        self.keys, self.batches, self.socket = keys, batches, socket.socket(socket.AF_UNIX)
        self.socket.settimeout(60)
        self.socket.connect(f"{folder}/socket")
        self.stream, self.close = self.socket.makefile("rb"), self.socket.close

    def ask(self, commands):
        self.socket.sendall(b"".join(map(packed, commands)))
        return [self.reply() for _ in commands]

    def reply(self):
        line = self.stream.readline()
        if line[:1] == b"*":
            return [self.reply() for _ in range(int(line[1:]))]
        if line[:1] == b"$":
            return 0 if line == b"$-1\r\n" else int(self.stream.read(int(line[1:]) + 2))
        if line[:1] not in (b"+", b":"):
            raise ConnectionError(line)
        return line

    def update(self, component, value):
        self.ask([["SET", self.keys[component], value]])

    def view(self):
        answers = [answer for batch in self.batches for answer in self.ask(batch)]
        return answers[-1] if isinstance(answers[-1], list) else answers


def history(way, seed):
    Client().ask([["FLUSHALL"]])
    return record([Client(*WAYS[way]) for _ in range(WORKERS)], seed, KEYS)


redis = need("redis-server")
with scratch() as folder, server([redis, "--port", "0", "--unixsocket", f"{folder}/socket", "--save", "", "--dir", folder], Client):
    tabulate("Redis " + output([redis, "--version"]).partition("v=")[2].split()[0], WAYS, history)
