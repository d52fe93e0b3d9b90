"""Starts a server on a free port, under schema 0 if no other is given, and opens links to it: for the scripts that check it and measure it."""
import http.client
import os
import socket
import struct
import subprocess
import sys
import tempfile
import time

# How long a response may take. It is much more than any should, since other programs may be busy.
PATIENCE = 3.0
GET_VERSION = b"GET /version HTTP/1.1\r\n\r\n"


class Server:
    """A server that runs while the block does."""

    def __init__(self, program, workers, schema=b'{"schema":0}\n'):
        self.program, self.workers, self.schema = program, workers, schema

    def __enter__(self):
        self.folder = tempfile.TemporaryDirectory()
        for _ in range(5):
            if self.starts():
                return self
            if self.ended is None:
                break
        self.folder.cleanup()
        sys.exit("the server does not answer")

    def starts(self):
        """Starts the server, and ends it if it does not answer."""
        self.port = free_port()
        self.process = subprocess.Popen([self.program, "serve", str(self.port), str(self.workers)], stdin=subprocess.PIPE, stdout=subprocess.DEVNULL,
                                        stderr=subprocess.DEVNULL, cwd=self.folder.name)
        started = False
        try:
            # Standard input stays open: the server reads the schema's line and nothing after it.
            self.process.stdin.write(self.schema)
            self.process.stdin.flush()
            started = self.answers()
        except BrokenPipeError:
            pass
        finally:
            # It ends by itself if another program has taken the port.
            self.ended = self.process.poll()
            if not started:
                self.end()
        return started

    def answers(self):
        """Whether the server answers before long."""
        until = time.monotonic() + PATIENCE
        while time.monotonic() < until and self.process.poll() is None:
            try:
                client = self.client()
                client.request("GET", "/version")
                answer = client.getresponse()
                answer.read()
                client.close()
                return answer.status == 200
            except (OSError, http.client.HTTPException):
                time.sleep(0.01)
        return False

    def link(self):
        return Link(self.port)

    def client(self):
        """A link of http.client, which keeps it open from one request to the next."""
        return http.client.HTTPConnection("127.0.0.1", self.port, timeout=PATIENCE)

    def memory(self):
        """The resident memory of the server in kilobytes."""
        with open(f"/proc/{self.process.pid}/status", encoding="ascii") as file:
            return next(int(line.split()[1]) for line in file if line.startswith("VmRSS:"))

    def end(self):
        self.process.terminate()
        try:
            self.process.wait(2)
        except subprocess.TimeoutExpired:
            self.process.kill()
            self.process.wait()
        try:
            self.process.stdin.close()
        except BrokenPipeError:
            pass

    def __exit__(self, *_):
        self.end()
        self.folder.cleanup()


class Link:
    """A link on which bytes are sent as they are."""

    def __init__(self, port):
        self.socket = socket.create_connection(("127.0.0.1", port), PATIENCE)
        self.socket.setsockopt(socket.IPPROTO_TCP, socket.TCP_NODELAY, 1)

    def __enter__(self):
        return self

    def __exit__(self, *_):
        self.socket.close()

    def send(self, data):
        self.socket.sendall(data)

    def finish(self):
        """No more bytes will be sent."""
        self.socket.shutdown(socket.SHUT_WR)

    def break_off(self):
        """Ends the link at once, whatever is on its way."""
        self.socket.setsockopt(socket.SOL_SOCKET, socket.SO_LINGER, struct.pack("ii", 1, 0))
        self.socket.close()

    def read(self, most=None):
        """So many bytes, or all up to the end. What came before a fault, where the link has one or waits too long."""
        found = b""
        try:
            while most is None or len(found) < most:
                piece = self.socket.recv(65536 if most is None else most - len(found))
                if not piece:
                    break
                found += piece
        except OSError as fault:
            return found + f" and then {type(fault).__name__}".encode()
        return found

    def is_silent(self, seconds):
        """Whether nothing comes for so long."""
        self.socket.settimeout(seconds)
        try:
            return self.socket.recv(1, socket.MSG_PEEK) is None
        except socket.timeout:
            return True
        finally:
            self.socket.settimeout(PATIENCE)


def free_port():
    with socket.socket() as probe:
        probe.bind(("127.0.0.1", 0))
        return probe.getsockname()[1]
