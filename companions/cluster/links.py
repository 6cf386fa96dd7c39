"""How messages reach the parts of a cluster and their answers come back: over TCP, a socket to each part, or through the lists of a Redis server."""
import json
import select
import socket
import time

import places
import resp


class Tcp:
    """A socket to each part, opened when it is needed."""

    def __init__(self, config, _name, timeout):
        self.addresses, self.timeout = {places.part_of(it): places.address(at) for it, at in config["parts"].items()}, timeout
        self.socks, self.rooms = {}, {}

    def send(self, part, line):
        if part not in self.socks:
            self.socks[part] = socket.create_connection(self.addresses[part], self.timeout)
            self.socks[part].setsockopt(socket.IPPROTO_TCP, socket.TCP_NODELAY, 1)
            self.rooms[part] = b""
        self.socks[part].sendall(line)

    def drop(self, part):
        if part in self.socks:
            self.socks.pop(part).close()

    def trip(self, messages):
        """Sends each (part, id, line), and gives the answers that come in time, by id."""
        waiting, got, end = {}, {}, time.monotonic() + self.timeout
        for part, number, line in messages:
            try:
                self.send(part, line)
                waiting.setdefault(part, set()).add(number)
            except OSError:
                self.drop(part)
        while waiting and (left := end - time.monotonic()) > 0:
            asked = {self.socks[part].fileno(): part for part in waiting if part in self.socks}
            for part in ready(asked, left):
                for answer in self.receive(part):
                    got[answer.get("id")] = answer
                    waiting[part].discard(answer.get("id"))
            waiting = {part: numbers for part, numbers in waiting.items() if numbers and part in self.socks}
        return got

    def receive(self, part):
        try:
            data = self.socks[part].recv(1 << 18)
        except OSError:
            data = b""
        if not data:
            self.drop(part)
            return []
        *lines, self.rooms[part] = (self.rooms[part] + data).split(b"\n")
        return list(map(json.loads, lines))


def ready(asked, seconds):
    """The parts of which something can be read, in no more than these seconds."""
    poll = select.poll()
    for it in asked:
        poll.register(it, select.POLLIN)
    return [asked[it] for it, _ in poll.poll(1000 * seconds)]


class Redis:
    """One socket to a Redis server, and the list of this client's answers there."""

    def __init__(self, config, name, timeout):
        self.address, self.name, self.timeout, self.sock, self.room = places.address(config["redis"]), name, timeout, None, b""

    def trip(self, messages):
        """Pushes each (part, id, line), and gives the answers that come in time, by id."""
        got, end = {}, time.monotonic() + self.timeout
        try:
            if not self.sock:
                self.sock, self.room = socket.create_connection(self.address, self.timeout), b""
            data = b""
            for part, _, line in messages:
                data += resp.command("RPUSH", f"tq:ask:{part}", line) + resp.command("EXPIRE", f"tq:ask:{part}", 5)
            self.sock.sendall(data)
            for _ in range(2 * len(messages)):
                self.value(end)
            while len(got) < len(messages) and (left := end - time.monotonic()) > 0.01:
                self.sock.sendall(resp.command("BLPOP", f"tq:answer:{self.name}", round(left, 3)))
                told = self.value(end + self.timeout)
                answer = json.loads(told[1]) if told else {}
                if answer.get("id") in [number for _, number, _ in messages]:
                    got[answer["id"]] = answer
        except OSError:
            if self.sock:
                self.sock.close()
            self.sock = None
        return got

    def value(self, end):
        while not (got := resp.value(self.room)):
            self.sock.settimeout(max(0.01, end - time.monotonic()))
            data = self.sock.recv(1 << 18)
            if not data:
                raise OSError("closed")
            self.room += data
        self.room = self.room[got[1] :]
        return got[0]
