"""Counting instructions for the scripts beside this one. valgrind's callgrind counts those of the program alone, and
not what the system does for it. Needs Python 3.9 or later and its standard library alone, and valgrind.
"""

import os
import re
import subprocess
import sys
import time

sys.path.insert(0, os.path.join(os.path.dirname(os.path.dirname(os.path.abspath(__file__))), "checks"))
from rehearsal import DEFAULT_PROGRAM, ROOT, program_of, request  # noqa: E402
from server import HOST, START, Faulty, Peer, free_port, reply_of, undated, write_pages  # noqa: E402

BUILT = os.path.join(ROOT, "crates", "ns_server", "out", "ns_server")
PAGE = b"proc hi {} {ns_return 200 text/plain hi}\nns_register_proc GET /hi hi\n"


def counted_program(words):
    """The program that a command line names, as program_of. Of the script at the top of the repository, which builds
    the program and hands over to it, it is the program."""
    program = program_of(words)
    if program != DEFAULT_PROGRAM:
        return program
    built = subprocess.run([program, "rehearse"], stdin=subprocess.DEVNULL, check=False)
    if built.returncode != 0:
        raise Faulty(f"the program wasn't built: status {built.returncode}")
    return BUILT


def callgrind(valgrind, out):
    """The words that run a program under callgrind."""
    return [valgrind, "--tool=callgrind", f"--callgrind-out-file={out}"]


def total(out):
    """The instructions that callgrind counted."""
    with open(out, encoding="utf-8") as file:
        return int(re.search(r"^totals: (\d+)", file.read(), re.MULTILINE)[1])


def peer_of(process, port):
    """A connection to the program, once it listens."""
    while True:
        if process.poll() is not None:
            raise Faulty(f"the program ended with status {process.returncode}")
        try:
            return Peer(port)
        except ConnectionRefusedError:
            time.sleep(0.05)


def ask(peer, requests):
    """Asks for `hi` so often, and looks at each reply. The last one ends the connection."""
    for place in range(1, requests + 1):
        last = place == requests
        peer.send(request("GET", "/hi", [("Connection", "close")] if last else []))
        reply = undated(peer.reply())
        if reply != reply_of(200, b"hi", close=last):
            raise Faulty(f"not the reply that is wanted: {reply!r}")


def of_requests(valgrind, program, folder, requests):
    """The instructions of the program's whole life, with so many requests of `hi` on one connection. One worker
    answers them, and keeps its interpreter."""
    root = os.path.join(folder, "root")
    out = os.path.join(folder, "out")
    write_pages(root, {START: PAGE})
    port = free_port()
    words = [*callgrind(valgrind, out), program, "serve", "--root", root, "--start", START, "--listen", f"{HOST}:{port}",
             "--workers", "1", "--connections", "1"]
    process = subprocess.Popen(words, stdin=subprocess.DEVNULL, stdout=subprocess.DEVNULL, stderr=subprocess.DEVNULL)
    try:
        with peer_of(process, port) as peer:
            ask(peer, requests)
        process.wait(timeout=60)
    finally:
        process.kill()
        process.wait()
    return total(out)
