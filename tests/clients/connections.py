"""One connection of a stock client of gRPC to a program that serves it, by `pipe` or by `serve`."""
import pathlib
import socket
import subprocess
import sys
import threading
import time

TOP = pathlib.Path(__file__).resolve().parents[2]
sys.path.insert(0, str(TOP / "examples"))

from write_client import WriteClient, channel_to

PATIENCE = 10
PIECE = 65_536


class Pipe:
    """`PROGRAM pipe`: what the client sends goes to its standard input, and its standard output to the client."""

    def __init__(self, program, tables):
        self.words = [program, "pipe", *tables]
        self.listener = socket.create_server(("127.0.0.1", 0))
        self.listener.settimeout(PATIENCE)
        self.address = "127.0.0.1:%d" % self.listener.getsockname()[1]
        self.status = None
        self.written = bytearray()
        self.thread = threading.Thread(target=self.serve, daemon=True)
        self.thread.start()

    def serve(self):
        link, _ = self.listener.accept()
        self.listener.close()
        link.setsockopt(socket.IPPROTO_TCP, socket.TCP_NODELAY, 1)
        child = subprocess.Popen(self.words, stdin=subprocess.PIPE, stdout=subprocess.PIPE, bufsize=0, cwd=TOP)
        there = threading.Thread(target=self.send_input, args=(link, child.stdin), daemon=True)
        there.start()
        self.send_output(child.stdout, link)
        try:
            self.status = child.wait(PATIENCE)
        except subprocess.TimeoutExpired:
            child.kill()
        there.join(PATIENCE)
        link.close()

    @staticmethod
    def send_input(link, stdin):
        """Until the client left, with or without a word, or the program doesn't read on."""
        try:
            while piece := memoryview(link.recv(PIECE)):
                while piece:
                    piece = piece[stdin.write(piece):]
        except OSError:
            pass
        stdin.close()

    def send_output(self, stdout, link):
        """Until the program ended; what comes when the client has left is kept alone."""
        while piece := stdout.read(PIECE):
            self.written += piece
            try:
                link.sendall(piece)
            except OSError:
                pass
        try:
            link.shutdown(socket.SHUT_RDWR)
        except OSError:
            pass

    def close(self):
        """The status of the program once the client has left."""
        self.thread.join(2 * PATIENCE)
        return self.status

    def summary(self):
        return None


class Serve:
    """`PROGRAM serve` with two workers or so many, for one connection or for so many."""

    def __init__(self, program, tables, connections=1, workers=2):
        with socket.create_server(("127.0.0.1", 0)) as free:
            self.address = "127.0.0.1:%d" % free.getsockname()[1]
        words = [program, "serve", "--listen", self.address, "--workers", str(workers),
                 "--connections", str(connections), *tables]
        self.child = subprocess.Popen(words, stdout=subprocess.PIPE, cwd=TOP)
        self.lines = None
        self.wait_until_it_listens()

    def wait_until_it_listens(self):
        """Without a connection, since the program counts these."""
        port = int(self.address.split(":")[1])
        for _ in range(100 * PATIENCE):
            rows = [line.split() for path in ("tcp", "tcp6") for line in open(f"/proc/net/{path}")]
            if any(row[1].endswith(f":{port:04X}") and row[3] == "0A" for row in rows):
                return
            time.sleep(0.01)

    def close(self):
        """The status of the program once the client has left; a program that waits for more clients is told to end."""
        try:
            output, _ = self.child.communicate(timeout=1)
        except subprocess.TimeoutExpired:
            self.child.terminate()
            output, _ = self.child.communicate(timeout=PATIENCE)
        self.lines = output.decode().splitlines()
        return self.child.returncode

    def summary(self):
        """`NAME entries E visible V` for each table."""
        return self.lines


class Connection:
    """A program, a channel to it and the client on that channel."""

    def __init__(self, way, program, specs):
        tables = [word for spec in specs for word in ("--table", spec)]
        self.program = {"pipe": Pipe, "serve": Serve}[way](program, tables)
        self.address = self.program.address
        self.channel = channel_to(self.address)
        self.client = WriteClient(self.channel)

    def close(self):
        self.channel.close()
        return self.program.close()
