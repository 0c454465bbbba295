"""Shared by the comparisons of servers: servers that are started and measured in rounds, and tables."""

import contextlib
import os
import pathlib
import socket
import statistics
import subprocess

PLAIN = pathlib.Path(__file__).resolve().parent / "plain-serve"
BUILT = PLAIN / "target" / "release"
HOST = "127.0.0.1"
CLOCK = os.sysconf("SC_CLK_TCK")
THOUSAND = 1000
MILLION = 1000000


def build():
    """Builds the plain server and the load generators."""
    subprocess.run(["cargo", "build", "--release", "--offline", "--quiet", "--manifest-path",
                    PLAIN / "Cargo.toml", "--target-dir", PLAIN / "target"], check=True)


class Failed(Exception):
    """A run that didn't end well."""


class Server:
    """A server, by its name in the table and the words that start it at a place: a port, or the path of a socket."""

    def __init__(self, name, what, words):
        self.name, self.what, self.words = name, what, words

    def place(self, _):
        """A free port. Other servers may have a path in the folder."""
        return free_port()

    @contextlib.contextmanager
    def running(self, folder, before=()):
        """The server once it listens: its process, and its place. Words before its own may run it in a tool."""
        place = self.place(folder)
        run = subprocess.Popen([*before, *self.words(place, folder)], stdin=subprocess.DEVNULL,
                               stdout=subprocess.PIPE)
        try:
            if not run.stdout.readline().startswith(b"listening"):
                raise Failed(f"{self.name} doesn't listen")
            yield run, place
        finally:
            run.terminate()
            run.wait()
            run.stdout.close()


def free_port():
    """A port that nobody listens on."""
    with socket.socket() as probe:
        probe.bind((HOST, 0))
        return probe.getsockname()[1]


def processor_seconds(pid):
    """The processor time of a process so far, of its own and the system's."""
    text = pathlib.Path(f"/proc/{pid}/stat").read_text(encoding="utf-8")
    fields = text.rpartition(")")[2].split()
    return (int(fields[11]) + int(fields[12])) / CLOCK


def measured(server, connections, depth, seconds, folder):
    """Replies a second, and microseconds of the server's processor time for each."""
    with server.running(folder) as (run, place):
        before = processor_seconds(run.pid)
        words = [BUILT / "load", str(place), str(connections), str(depth), str(seconds), server.what]
        load = subprocess.run(words, stdout=subprocess.PIPE, check=True)
        count, took = load.stdout.split()
        spent = processor_seconds(run.pid) - before
        return int(count) / float(took), spent * MILLION / int(count)


def in_rounds(all_servers, rounds, measure):
    """The figures of each server: in each round it is measured once, after the one before it."""
    seen = [[] for _ in all_servers]
    for _ in range(rounds):
        for server, figures in zip(all_servers, seen):
            figures.append(measure(server))
    return seen


def reply_cells(all_servers, connections, depth, words, folder):
    """The cells of one row of the table of replies."""
    def measure(server):
        return measured(server, connections, depth, words.seconds, folder)

    cells = [str(connections), str(depth)]
    return cells + [rate_cell(figures) for figures in in_rounds(all_servers, words.rounds, measure)]


def rate_cell(figures):
    """The cell of some rates with their costs."""
    rates, costs = zip(*figures)
    return f"{rounded(statistics.median(rates))} ({rounded(max(rates))}), {statistics.median(costs):.2f}"


def rounded(rate):
    """A rate in thousands."""
    thousands = rate / THOUSAND
    return f"{thousands:.0f}k" if thousands >= 10 else f"{thousands:.1f}k"


def print_row(cells):
    print("| " + " | ".join(cells) + " |", flush=True)


def print_head(names, all_servers):
    print_row([*names, *(server.name for server in all_servers)])
    print_row(["---"] * (len(names) + len(all_servers)))
