"""A cluster for the tests, whose processes are killed, stopped and continued."""
import contextlib
import os
import signal
import subprocess
import sys
import time

import client
import places

HERE = os.path.dirname(os.path.realpath(__file__))


class Cluster:
    """`hosts` has the program of parts that have one of their own."""

    def __init__(self, folder, levels, host, redis=None, hosts=()):
        self.folder, self.host, self.hosts, self.running = folder, host, dict(hosts), {}
        words = ["--levels", str(levels), "--make", *["--transport", "redis", "--redis", redis] * bool(redis)]
        subprocess.run([f"{HERE}/up", "--dir", folder, *words], check=True)
        self.config, self.said = places.read(folder), open(f"{folder}/said", "ab")
        self.parts, self.servers = places.parts(levels), range(1, 2**levels)
        self.operator = client.Client(self.config, "operator", open(f"{folder}/receipts/operator", "w", encoding="utf-8"), timeout=3.0)

    def __enter__(self):
        for part in self.parts:
            self.start(part)
        self.wait(self.parts)
        return self

    def __exit__(self, *_):
        for part in [*self.running]:
            self.go_on(part)
            self.kill(part, "bridge")
        self.said.close()
        self.operator.receipts.close()

    def start(self, part, host=None):
        words = [sys.executable, f"{HERE}/part", self.folder, str(part), "--host", host or self.hosts.get(part, self.host)]
        # That of the host before is no host's any more.
        with contextlib.suppress(FileNotFoundError):
            os.remove(f"{self.folder}/{part}/host.pid")
        self.running[part] = subprocess.Popen(words, stdin=subprocess.DEVNULL, stdout=self.said, stderr=self.said)

    def wait(self, parts, seconds=300):
        """Until all of them answer."""
        end = time.monotonic() + seconds
        while parts := [part for part in parts if self.operator.length(part) is client.LOST]:
            if time.monotonic() > end or any(self.running[part].poll() is not None for part in parts):
                raise SystemExit(f"cluster: {parts} do not answer: see {self.folder}/said")
            time.sleep(0.05)

    def host_of(self, part):
        with open(f"{self.folder}/{part}/host.pid", encoding="ascii") as it:
            return int(it.read())

    def signal(self, part, what, number):
        """Sends a signal to the part's `host` or `bridge`, where it is there."""
        with contextlib.suppress(ProcessLookupError, FileNotFoundError):
            os.kill(self.host_of(part) if what == "host" else self.running[part].pid, number)

    def kill(self, part, what):
        """With either the other ends too. A host that is not there yet is waited for."""
        while self.running[part].poll() is None:
            self.signal(part, what, signal.SIGKILL)
            time.sleep(0.02)
        return self.running.pop(part).returncode

    def tear(self, part, torn):
        """Puts what is no whole line behind the log, once its host has ended."""
        while places.is_hosted(self.folder, part):
            time.sleep(0.02)
        with open(self.log(part), "ab") as it:
            it.write(torn)

    def pause(self, part, what):
        self.signal(part, what, signal.SIGSTOP)

    def go_on(self, part):
        for what in ("bridge", "host"):
            self.signal(part, what, signal.SIGCONT)

    def mark(self, server, up):
        self.operator.ask_all([("view", {"is": "mark", "server": server, "up": up})])

    def log(self, part):
        return places.log_of(self.folder, part)

    def collect(self, *words):
        """Journals, what is said of receipts, and the status."""
        done = subprocess.run([f"{HERE}/collect", self.folder, *words], capture_output=True, check=False)
        return done.stdout, done.stderr.decode(), done.returncode

    def full(self, part, more):
        """A host whose log takes so many bytes more, as on a disk that is full then."""
        blocks, path = (os.path.getsize(self.log(part)) + more) // 512, f"{self.folder}/{part}/full"
        with open(path, "w", encoding="utf-8") as it:
            it.write(f"#!/bin/sh\ntrap '' XFSZ\nulimit -f {blocks}\nexec {self.hosts.get(part, self.host)} \"$@\"\n")
        os.chmod(path, 0o755)
        return path
