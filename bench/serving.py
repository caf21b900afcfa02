"""What the scripts over `hub serve` share: servers that are started and ended, and connections to them."""

import contextlib
import os
import socket
import subprocess
import threading
import time

from measure import HUB

SCOPES = "roster.readonly roster-demographics.readonly gradebook.readonly gradebook.createput gradebook.delete"
# A caller for all that is asked by itself, and one for each consumer: the marks of a caller's writes are its own.
GRANTS = "caller,token,scopes,schools\n" + "".join(f"{name},tok-{name},{SCOPES},*\n" for name in ("a", "1", "2", "3"))
READY = b"listening on "
API = "/ims/oneroster/v1p1"


def free_port():
    with socket.create_server(("127.0.0.1", 0)) as listener:
        return listener.getsockname()[1]


def address(port):
    return f"127.0.0.1:{port}"


class Server:
    """A `hub serve` in a folder, with the lines that it writes to standard error."""

    def __init__(self, folder, words):
        self.lines = []
        self.ready = threading.Event()
        self.child = subprocess.Popen([HUB, *words], cwd=folder, stdout=subprocess.PIPE, stderr=subprocess.PIPE)
        self.reader = threading.Thread(target=self.read_lines, daemon=True)
        self.reader.start()

    def read_lines(self):
        for line in self.child.stderr:
            self.lines.append(line.decode().rstrip("\n"))
            if line.startswith(READY):
                self.ready.set()
        self.ready.set()

    def wait_for(self, line, seconds=120):
        """Whether a line with this beginning comes in time."""
        end = time.monotonic() + seconds
        while time.monotonic() < end:
            if any(said.startswith(line) for said in self.lines):
                return True
            time.sleep(0.01)
        return False

    def memory(self):
        """The peak of its memory in MiB."""
        with open(f"/proc/{self.child.pid}/status", encoding="utf-8") as file:
            return next(int(line.split()[1]) / 1024 for line in file if line.startswith("VmHWM"))

    def ended(self, seconds=60):
        """Its status and what it wrote to standard output, where it ends by itself."""
        try:
            self.child.wait(timeout=seconds)
        except subprocess.TimeoutExpired:
            return None, b""
        self.reader.join()
        return self.child.returncode, self.child.stdout.read()

    def stop(self):
        self.child.kill()
        self.child.wait()
        self.reader.join()


@contextlib.contextmanager
def served(folder, words):
    """A server that listens, and is stopped behind the block."""
    server = Server(folder, words)
    try:
        server.ready.wait(120)
        yield server
    finally:
        server.stop()


@contextlib.contextmanager
def nginx(folder, port, location):
    """An nginx on loopback with this location at its root."""
    path = os.path.join(folder, "nginx.conf")
    with open(path, "w", encoding="utf-8") as file:
        file.write(
            f"daemon off; worker_processes 1; pid {folder}/nginx.pid; error_log {folder}/nginx.log;\n"
            "events { worker_connections 1024; }\n"
            f"http {{ access_log off; client_body_temp_path {folder}/body; proxy_temp_path {folder}/proxy;\n"
            f"fastcgi_temp_path {folder}/fastcgi; uwsgi_temp_path {folder}/uwsgi; scgi_temp_path {folder}/scgi;\n"
            f"server {{ listen 127.0.0.1:{port}; location / {{ {location} }} }} }}\n"
        )
    child = subprocess.Popen(["nginx", "-p", folder, "-c", path], stderr=subprocess.DEVNULL)
    try:
        for _ in range(200):
            with contextlib.suppress(OSError), socket.create_connection(("127.0.0.1", port)):
                break
            time.sleep(0.02)
        yield child
    finally:
        child.terminate()
        child.wait()


def request(path, verb="GET", token="tok-a", fields="", body=b""):
    length = f"Content-Length: {len(body)}\r\n" if body else ""
    return f"{verb} {API}{path} HTTP/1.1\r\nHost: hub\r\nAuthorization: Bearer {token}\r\n{fields}{length}\r\n".encode() + body


class Client:
    """A connection, and the replies that come over it."""

    def __init__(self, port, host="127.0.0.1", seconds=30):
        self.stream = socket.create_connection((host, port), timeout=seconds)
        self.stream.setsockopt(socket.IPPROTO_TCP, socket.TCP_NODELAY, 1)
        self.file = self.stream.makefile("rb")

    def __enter__(self):
        return self

    def __exit__(self, *_):
        self.close()

    def close(self):
        self.file.close()
        self.stream.close()

    def send(self, data):
        self.stream.sendall(data)

    def reply(self):
        """The status, the fields and the body of the next reply; None where none comes."""
        first = self.file.readline().split(b" ")
        if len(first) < 2:
            return None
        fields = {}
        for line in iter(self.file.readline, b"\r\n"):
            name, _, value = line.decode().partition(":")
            fields[name.lower()] = value.strip()
        return int(first[1]), fields, self.file.read(int(fields.get("content-length", "0")))

    def ask(self, data):
        self.send(data)
        return self.reply()


def status_of(port, data, seconds=60):
    """The status of a reply over a connection of its own, or None."""
    try:
        with Client(port, seconds=seconds) as client:
            reply = client.ask(data)
            return reply and reply[0]
    except OSError:
        return None
