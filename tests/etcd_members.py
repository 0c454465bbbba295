"""Three members of etcd on this machine, in a folder of their own, which can be killed and stopped."""

import http.client
import json
import pathlib
import shutil
import signal
import subprocess
import time

from ports import HOST, free_port

# What docs/SCALING.md advises for members that are near each other: another leader comes sooner.
NEAR = ("--pre-vote", "--heartbeat-interval", "50", "--election-timeout", "500")
# How many seconds the members may take to begin on a busy machine.
BEGIN = 120


class Members:
    """The members, and what is done to each. Each has an address, and words before its command, such as those that put
    it into a network namespace."""

    def __init__(self, folder, hosts=(HOST,) * 3, before=((),) * 3):
        self.folder, self.hosts, self.before = pathlib.Path(folder), hosts, before
        self.clients = [free_port() for _ in hosts]
        self.peers = [free_port() for _ in hosts]
        self.runs = [None] * len(hosts)
        for each in range(len(hosts)):
            self.start(each, "new")
        try:
            self.wait()
        except BaseException:  # (also if the check is stopped by a signal)
            self.end()
            raise

    def start(self, each, state="existing"):
        client, peer = (f"http://{self.hosts[each]}:{ports[each]}" for ports in (self.clients, self.peers))
        names = ",".join(f"e{n}=http://{host}:{port}" for n, (host, port) in enumerate(zip(self.hosts, self.peers)))
        words = [*self.before[each], "etcd", "--name", f"e{each}", "--data-dir", self.folder / f"e{each}",
                 "--log-level", "error", *NEAR,
                 "--listen-client-urls", client, "--advertise-client-urls", client,
                 "--listen-peer-urls", peer, "--initial-advertise-peer-urls", peer,
                 "--initial-cluster", names, "--initial-cluster-state", state]
        with open(self.folder / f"e{each}.log", "ab") as log:
            self.runs[each] = subprocess.Popen(words, stdout=log, stderr=log)

    def places(self, first=0):
        """The members as a text, from one of them on."""
        places = [f"{host}:{port}" for host, port in zip(self.hosts, self.clients)]
        return ",".join(places[first:] + places[:first])

    def kill(self, each):
        """Kills a member, which keeps its folder."""
        self.runs[each].kill()
        self.runs[each].wait()

    def stop(self, *them):
        for each in them:
            self.runs[each].send_signal(signal.SIGSTOP)

    def go_on(self, *them):
        for each in them:
            self.runs[each].send_signal(signal.SIGCONT)

    def wait(self, seconds=BEGIN):
        """Waits until a majority answers."""
        end = time.monotonic() + seconds
        while time.monotonic() < end:
            for host, port in zip(self.hosts, self.clients):
                if answers(host, port):
                    return
            time.sleep(0.1)
        raise TimeoutError("etcd does not begin")

    def end(self):
        """Ends all members, and removes their folders."""
        for run in self.runs:
            run.send_signal(signal.SIGCONT)
            run.kill()
            run.wait()
        shutil.rmtree(self.folder, ignore_errors=True)


def answers(host, port):
    """Whether the member at a port carries out a request of a majority."""
    try:
        to = http.client.HTTPConnection(host, port, timeout=2)
        to.request("POST", "/v3/kv/range", json.dumps({"key": "AA=="}))
        return to.getresponse().status == 200
    except (OSError, http.client.HTTPException):
        return False
