"""The running server for the scripts beside this one: starting it, asking it over sockets, telling what was seen.

docs/PROGRAM.md says what `serve` does, docs/SERVICE.md what a reply is. Needs Python 3.9 or later and its standard
library alone, on Linux.
"""

import contextlib
import json
import os
import re
import resource
import shutil
import signal
import socket
import subprocess
import sys
import tempfile
import time
from dataclasses import dataclass

HOST = "127.0.0.1"
START = "/start.tcl"
LIMIT = 60
DATE = re.compile(rb"\r\nDate: (?:Mon|Tue|Wed|Thu|Fri|Sat|Sun), \d\d [A-Z][a-z]{2} \d{4} \d\d:\d\d:\d\d GMT\r\n")
UNDATED = b"\r\nDate: MOMENT\r\n"
REASONS = {200: "OK", 201: "Created", 204: "No Content", 302: "Found", 400: "Bad Request", 401: "Unauthorized",
           403: "Forbidden", 404: "Not Found", 413: "Content Too Large", 431: "Request Header Fields Too Large",
           500: "Internal Server Error", 501: "Not Implemented", 503: "Service Unavailable"}


# What scripts look for, and the package of Debian that has it, where that has another name.
PACKAGES = {"apache2": "apache2 libapache2-mod-rivet", "prlimit": "util-linux", "setpriv": "util-linux",
            "ss": "iproute2", "systemctl": "systemd", "systemd-analyze": "systemd", "tclsh": "tcl",
            "unshare": "util-linux", "useradd": "passwd"}


class Missing(Exception):
    """Something that a script needs isn't on this machine."""


class Faulty(Exception):
    """The server didn't start, or a reply is none."""


# ---- what is wanted of a reply

def head_of(status, length, kind="text/plain", fields=(), close=False):
    """The head of a reply as it is wanted, its date left open. `fields` are the output fields."""
    lines = [f"HTTP/1.1 {status} {REASONS[status]}", "Date: MOMENT", "Server: AOLserver-profile/1"]
    lines += [f"{key}: {value}" for key, value in fields]
    if status not in (204, 304):
        lines += [f"Content-Type: {kind}", f"Content-Length: {length}"]
    lines.append("Connection: " + ("close" if close else "keep-alive"))
    return "\r\n".join(lines).encode() + b"\r\n\r\n"


def reply_of(status, body, kind="text/plain", fields=(), close=False):
    """A reply as it is wanted, its date left open."""
    return head_of(status, len(body), kind, fields, close) + body


def plain(status, fields=(), close=False):
    """The plain reply of a status as it is wanted, its date left open."""
    return reply_of(status, f"{status} {REASONS[status]}\n".encode(), "text/plain", fields, close)


def undated(reply):
    """A reply with its date left open, where it has one in the right form and place."""
    head, mark, body = reply.partition(b"\r\n\r\n")
    return DATE.sub(UNDATED, head, count=1) + mark + body


BUSY = plain(503, close=True)


# ---- the program

@dataclass
class Limits:
    """The options of `serve` that a script may choose, and how many descriptors and bytes of address space it gets;
    0: as many as there are."""

    workers: int = 4
    queue: int = 64
    descriptors: int = 0
    space: int = 0

    def set(self):
        """Sets the limits of this process."""
        set_descriptors(self.descriptors)
        if self.space:
            resource.setrlimit(resource.RLIMIT_AS, (self.space, self.space))


class Server:
    """The program, serving a folder of pages on a free port, in a process group of its own. To be used with `with`."""

    def __init__(self, program, pages, limits=None, environment=None):
        self.program = program
        self.pages = pages
        self.limits = limits or Limits()
        self.environment = environment or {}
        self.port = free_port()
        self.folder = None
        self.process = None

    def __enter__(self):
        self.folder = tempfile.mkdtemp(prefix="ns_server-")
        try:
            write_pages(os.path.join(self.folder, "root"), self.pages)
            self.start()
        except BaseException:
            self.__exit__()
            raise
        return self

    def __exit__(self, *_):
        self.stop()
        shutil.rmtree(self.folder)

    def start(self):
        """Starts the program and waits until it accepts connections."""
        words = [self.program, "serve", "--root", os.path.join(self.folder, "root"), "--start", START,
                 "--listen", f"{HOST}:{self.port}", "--workers", str(self.limits.workers),
                 "--queue", str(self.limits.queue)]
        with open(os.path.join(self.folder, "errors"), "ab") as errors:
            self.process = subprocess.Popen(words, stdin=subprocess.DEVNULL, stdout=errors, stderr=errors,
                                            env={**os.environ, **self.environment}, start_new_session=True,
                                            preexec_fn=self.limits.set)
        self.await_answer()

    def await_answer(self):
        # The script at the top of the repository may build the program first; it then takes as long as it takes.
        while True:
            if self.process.poll() is not None:
                raise Faulty(f"the program ended with status {self.process.returncode}: {self.errors()}")
            try:
                socket.create_connection((HOST, self.port), timeout=LIMIT).close()
                return
            except ConnectionRefusedError:
                time.sleep(0.05)

    def stop(self):
        """Stops the program, where it runs."""
        if self.process is None:
            return
        if self.process.poll() is None:
            os.kill(self.process.pid, signal.SIGTERM)
        try:
            self.process.wait(timeout=10)
        except subprocess.TimeoutExpired:
            os.killpg(self.process.pid, signal.SIGKILL)
            self.process.wait()

    def lives(self):
        """Whether the program still runs."""
        return self.process.poll() is None

    def errors(self):
        """What the program said on its streams."""
        with open(os.path.join(self.folder, "errors"), encoding="utf-8", errors="replace") as file:
            return file.read().strip()

    def address(self):
        """The address as it stands in a URL."""
        return f"{HOST}:{self.port}"

    def peer(self):
        """A new connection."""
        return Peer(self.port)

    def ask(self, sent, head_only=False):
        """The bytes of one reply to what is sent, on a connection of its own that is then closed."""
        with self.peer() as peer:
            peer.send(sent)
            return peer.reply(head_only)

    def processor_seconds(self):
        """The processor time that the program has used so far."""
        return group_seconds(self.process.pid)

    def resident_bytes(self):
        """How much memory the program has."""
        return group_bytes(self.process.pid)


def processes_of(group):
    """The processes of a group."""
    return [process for process in map(int, filter(str.isdigit, os.listdir("/proc"))) if group_of(process) == group]


def group_of(process):
    """The group of a process; None where it has gone."""
    with contextlib.suppress(ProcessLookupError):
        return os.getpgid(process)
    return None


def group_bytes(group):
    """The memory that the processes of a group have, what they share counted once."""
    return sum(process_bytes(process) for process in processes_of(group))


def process_bytes(process):
    """The memory that a process has, and its part of what it shares."""
    with open(f"/proc/{process}/smaps_rollup", encoding="utf-8") as file:
        return int(re.search(r"^Pss:\s+(\d+) kB$", file.read(), re.MULTILINE)[1]) * 1024


def group_seconds(group):
    """The processor time that the processes of a group have used so far."""
    return sum(process_seconds(process) for process in processes_of(group))


def process_seconds(process):
    """The processor time that a process has used so far."""
    with open(f"/proc/{process}/stat", encoding="utf-8") as file:
        fields = file.read().rpartition(")")[2].split()
    return (int(fields[11]) + int(fields[12])) / os.sysconf("SC_CLK_TCK")


def free_port():
    """A port that nobody listens on."""
    with socket.socket() as listener:
        listener.bind((HOST, 0))
        return listener.getsockname()[1]


def set_descriptors(count=0):
    """Sets the limit of descriptors, at 0 to as many as there may be, and tells how many that is."""
    _, most = resource.getrlimit(resource.RLIMIT_NOFILE)
    resource.setrlimit(resource.RLIMIT_NOFILE, (count or most, most))
    return count or most


def write_pages(root, pages):
    """Writes pages, their contents by their paths, below a folder."""
    for path, content in pages.items():
        place = root + path
        os.makedirs(os.path.dirname(place), exist_ok=True)
        with open(place, "wb") as file:
            file.write(content)


# ---- a client

class Peer:
    """A connection whose replies are read to the byte. To be used with `with`."""

    def __init__(self, port, timeout=LIMIT):
        self.line = socket.create_connection((HOST, port), timeout=timeout)
        self.line.setsockopt(socket.IPPROTO_TCP, socket.TCP_NODELAY, 1)
        self.carried = b""

    def __enter__(self):
        return self

    def __exit__(self, *_):
        self.line.close()

    def send(self, content):
        """Sends what the other end takes: where it has gone, what it had sent before can still be read."""
        with contextlib.suppress(ConnectionError):
            try:
                self.line.sendall(content)
            except socket.timeout:
                raise Faulty(f"the server took nothing for {self.line.gettimeout():.0f} seconds") from None

    def end(self):
        """Sends no more, and goes on reading."""
        with contextlib.suppress(OSError):
            self.line.shutdown(socket.SHUT_WR)

    def reset(self):
        """Ends the connection with a reset."""
        self.line.setsockopt(socket.SOL_SOCKET, socket.SO_LINGER, b"\1\0\0\0\0\0\0\0")
        self.line.close()

    def receive(self):
        """Some more bytes; none where the connection ended, by a reset too."""
        try:
            return self.line.recv(1 << 16)
        except ConnectionError:
            return b""
        except socket.timeout:
            raise Faulty(f"the server was silent for {self.line.gettimeout():.0f} seconds") from None

    def reply(self, head_only=False):
        """The bytes of the next reply; what there is of it where the connection ends before."""
        while reply_size(self.carried, head_only) is None:
            if not self.fill():
                return self.take(len(self.carried))
        size = reply_size(self.carried, head_only)
        while len(self.carried) < size and self.fill():
            pass
        return self.take(size)

    def rest(self):
        """All bytes until the connection ends."""
        while self.fill():
            pass
        return self.take(len(self.carried))

    def fill(self):
        more = self.receive()
        self.carried += more
        return len(more) > 0

    def take(self, size):
        taken, self.carried = self.carried[:size], self.carried[size:]
        return taken


def reply_size(content, head_only=False):
    """The size of the reply with which some bytes begin; None where its head isn't whole."""
    head = content.find(b"\r\n\r\n") + 4
    if head < 4:
        return None
    length = re.search(rb"\r\nContent-Length: (\d+)\r\n", content[:head], re.IGNORECASE)
    return head + (int(length[1]) if length and not head_only else 0)


def replies_in(content):
    """The replies that stand behind one another, and what is left over, if anything is."""
    replies = []
    while content:
        size = reply_size(content) or len(content)
        replies.append(content[:size])
        content = content[size:]
    return replies


def body_of(reply):
    """The body of a reply."""
    return reply.partition(b"\r\n\r\n")[2]


# ---- wrk

# What wrk does with replies and at its end. A script that stands before this gives, for a status and a body, the name
# under which a reply counts: "right", "busy" or "wrong".
WRK = r"""
local threads = {}

function setup(thread) table.insert(threads, thread) end

function init(arguments) right, busy, wrong, first_wrong = 0, 0, 0, "" end

function response(status, headers, body)
    local kind = kind_of(status, body)
    _G[kind] = _G[kind] + 1
    if kind == "wrong" and first_wrong == "" then
        first_wrong = (status .. " " .. body:sub(1, 100)):gsub("[^%w ]", "?")
    end
end

function done(summary, latency, requests)
    local sums, first = {right = 0, busy = 0, wrong = 0}, ""
    for _, thread in ipairs(threads) do
        for name in pairs(sums) do sums[name] = sums[name] + thread:get(name) end
        if first == "" then first = thread:get("first_wrong") end
    end
    local errors = summary.errors
    io.stderr:write(string.format(
        '{"right": %d, "busy": %d, "wrong": %d, "first_wrong": "%s", "connect": %d, "read": %d, "write": %d, ' ..
        '"timeout": %d, "microseconds": %d, "middle": %d, "late": %d}\n',
        sums.right, sums.busy, sums.wrong, first, errors.connect, errors.read, errors.write,
        errors.timeout, summary.duration, latency:percentile(50), latency:percentile(99)))
end
"""


@dataclass
class Loaded:
    """What wrk tells of a load: how many replies were of each kind, its errors, and times in microseconds."""

    right: int
    busy: int
    wrong: int
    first_wrong: str
    connect: int
    read: int
    write: int
    timeout: int
    microseconds: int
    middle: int
    late: int

    def rate(self):
        """Right replies in a second."""
        return self.right * 1_000_000 / self.microseconds

    def figures(self):
        return (f"{self.rate():.0f} requests a second, 50th percentile {self.middle / 1000:.2f} ms, "
                f"99th {self.late / 1000:.2f} ms")


def load(url, kind_of, connections, seconds):
    """Loads a URL by wrk. `kind_of` is a function in Lua that names the kind of a reply."""
    with tempfile.NamedTemporaryFile("w", suffix=".lua", encoding="utf-8") as script:
        script.write(kind_of + WRK)
        script.flush()
        words = [tool("wrk"), "--threads", str(min(2, connections)), "--connections", str(connections),
                 "--duration", f"{seconds}s", "--timeout", "30s", "--script", script.name, url]
        ran = subprocess.run(words, capture_output=True, text=True, check=False)
    try:
        return Loaded(**json.loads(ran.stderr.strip().splitlines()[-1]))
    except (IndexError, ValueError):
        raise Faulty(f"wrk: {ran.stdout} {ran.stderr}") from None


# ---- what was seen

class Report:
    """Prints a line for each measure, and counts what is wrong."""

    def __init__(self):
        self.wrong = 0

    def tell(self, name, text):
        """A measure of which nothing is claimed."""
        print(f"{name}: {text}", flush=True)

    def hold(self, name, holds, text):
        """A measure that must hold."""
        self.wrong += not holds
        print(f"{name}: {'right' if holds else 'WRONG'}, {text}", flush=True)

    def same(self, name, got, wanted):
        """What must be the same: bytes, or a list of things."""
        if got == wanted:
            print(f"{name}: right" + (f", {len(got)} bytes" if isinstance(got, bytes) else ""), flush=True)
            return
        self.wrong += 1
        print(f"{name}: WRONG, {shown(got)}, wanted {shown(wanted)}", flush=True)

    def reply(self, name, got, wanted):
        """A reply that must be the same but for its date."""
        self.same(name, undated(got), wanted)

    def lives(self, server):
        """The program must still run, and have said nothing."""
        self.hold("the program", server.lives() and not server.errors(), server.errors() or "it lives")

    def status(self):
        return 1 if self.wrong else 0


def shown(content):
    """Something as it is printed: not more of it than can be read."""
    most = 800
    text = repr(content)
    return text if len(text) <= most else f"{text[:most // 2]} .. {text[-most // 2:]} ({len(text)} characters)"


def percentile(values, part):
    """The value below which such a part of the values lies, in percent."""
    ordered = sorted(values)
    return ordered[min(len(ordered) - 1, len(ordered) * part // 100)]


def milliseconds(seconds):
    return f"{seconds * 1000:.1f} ms"


def tool(name):
    """The path of a program of this machine."""
    path = shutil.which(name) or shutil.which(name, path="/usr/sbin:/sbin:/usr/local/sbin")
    if path is None:
        raise Missing(f"needs {name}, which isn't on this machine; on Debian: apt-get install "
                      + PACKAGES.get(name, name))
    return path


def ended(check):
    """Runs a check, which takes a Report, and gives the script's status. A check that is stopped cleans up first."""
    signal.signal(signal.SIGTERM, lambda number, _: sys.exit(128 + number))
    report = Report()
    try:
        check(report)
    except Missing as error:
        print(error, file=sys.stderr)
        return 2
    except Faulty as error:
        print(error)
        return 1
    return report.status()
