"""What the scripts share that put the running server under attack: words of the command line, sessions, processes.

Needs Python 3.9 or later and its standard library alone, on Linux.
"""

import argparse
import contextlib
import multiprocessing
import os
import queue
import re
import socket
import struct
import sys
import threading
import time

from rehearsal import DEFAULT_PROGRAM
from server import HOST, Faulty

DATES = re.compile(rb"(\r\nDate: )[A-Z][a-z]{2}, \d\d [A-Z][a-z]{2} \d{4} \d\d:\d\d:\d\d GMT(\r\nServer: )")
LINGER = struct.pack("ii", 1, 0)
# A connection that is silent for a tenth of a second while others wait is closed.
LATE = 0.05
TRIES = 5
# After how many seconds a script gives its processes up.
PATIENCE = 10_000


def options_of(text, **counts):
    """The words of the command line: the program, and numbers with their values where they are left out."""
    parser = argparse.ArgumentParser(description=text, formatter_class=argparse.RawDescriptionHelpFormatter)
    parser.add_argument("program", nargs="?", default=DEFAULT_PROGRAM, help="the server's program, ./ns_server")
    for name, (value, meaning) in counts.items():
        parser.add_argument(f"--{name}", type=int, default=value, help=f"{meaning}, {value}")
    options = parser.parse_args()
    if not os.access(options.program, os.X_OK):
        print(f"no program at {options.program}", file=sys.stderr)
        sys.exit(2)
    options.program = os.path.abspath(options.program)
    return options


def undated_all(stream):
    """Replies behind one another, their dates left open."""
    return DATES.sub(rb"\1MOMENT\2", stream)


def session(port, pieces, timeout=10.0, pause=None):
    """All that comes for these pieces, each of which is sent by itself, until the server closes the connection.

    Behind the last piece the peer says that nothing more comes. Raises socket.timeout where nothing comes for so long,
    and ConnectionError where the server resets the connection. A connection that got nothing, and on which the machine
    let this process send so late that it counted as silent, is tried again."""
    for _ in range(TRIES):
        began = time.monotonic()
        with socket.create_connection((HOST, port), timeout=timeout) as line:
            line.setsockopt(socket.IPPROTO_TCP, socket.TCP_NODELAY, 1)
            late = send_all(line, pieces, pause) - began > LATE
            got = rest_of(line)
            # No port of the client is kept for a minute.
            line.setsockopt(socket.SOL_SOCKET, socket.SO_LINGER, LINGER)
        if got or not late:
            break
    return got


def send_all(line, pieces, pause):
    """Sends what the other end takes of these pieces; the moment at which the first was sent."""
    first = None
    with contextlib.suppress(BrokenPipeError, ConnectionResetError, OSError):
        for piece in pieces:
            line.sendall(piece)
            first = first or time.monotonic()
            if pause is not None:
                pause()
        line.shutdown(socket.SHUT_WR)
    return first or time.monotonic()


def rest_of(line):
    """All that comes until the connection ends."""
    parts = []
    while True:
        part = line.recv(1 << 18)
        if not part:
            return b"".join(parts)
        parts.append(part)


def difference(got, wanted):
    """Where two texts begin to differ, and some bytes of both from there on."""
    at = next((at for at, (one, other) in enumerate(zip(got, wanted)) if one != other), min(len(got), len(wanted)))
    begin = max(0, at - 40)
    return f"at {at} of {len(wanted)}: {got[begin:at + 200]!r}, wanted {wanted[begin:at + 200]!r}"


def smallest(content, fails, most=400):
    """A small part of a content that still fails, by leaving out ever smaller pieces, with so many tries at most."""
    size, tries = max(1, len(content) // 2), 0
    while size >= 1 and tries < most:
        at, cut = 0, False
        while at < len(content) and tries < most:
            shorter = content[:at] + content[at + size:]
            tries += 1
            if shorter and fails(shorter):
                content, cut = shorter, True
            else:
                at += size
        if not cut or size > 1:
            size //= 2
    return content


def side_by_side(work, arguments):
    """What `work` gives for each of the arguments, each in a process of its own. A Faulty of one is raised here."""
    answers = multiprocessing.Queue()
    processes = [multiprocessing.Process(target=answer_of, args=(answers, at, work, argument), daemon=True)
                 for at, argument in enumerate(arguments)]
    for process in processes:
        process.start()
    came = {}
    try:
        while len(came) < len(processes):
            at, result = answers.get(timeout=PATIENCE)
            came[at] = result
    except queue.Empty:
        raise Faulty(f"{len(processes) - len(came)} processes of the script didn't end in {PATIENCE} seconds") from None
    finally:
        for process in processes:
            process.terminate()
            process.join()
    for result in came.values():
        if isinstance(result, Faulty):
            raise result
    return [came[at] for at in range(len(processes))]


def answer_of(answers, at, work, argument):
    try:
        result = work(argument)
    except Faulty as error:
        result = error
    except Exception as error:  # what is wrong in a process is told by the script
        result = Faulty(f"{type(error).__name__}: {error}")
    answers.put((at, result))


def in_threads(work, arguments):
    """What `work` gives for each of the arguments, each in a thread of its own. The first fault is raised."""
    came, faults = {}, []

    def run(at, argument):
        try:
            came[at] = work(argument)
        except Exception as error:  # told by the script
            faults.append(error if isinstance(error, Faulty) else Faulty(f"{type(error).__name__}: {error}"))

    threads = [threading.Thread(target=run, args=(at, argument)) for at, argument in enumerate(arguments)]
    for thread in threads:
        thread.start()
    for thread in threads:
        thread.join()
    if faults:
        raise faults[0]
    return [came[at] for at in range(len(threads))]


def now():
    """The day and the minute, for what is printed."""
    return time.strftime("%d %B %Y %H:%M UTC", time.gmtime())
