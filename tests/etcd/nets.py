"""Network namespaces that one bridge connects, each of which can be cut off from all others. They need root."""

import contextlib
import ctypes
import os
import subprocess

CLONE_NEWNET = 0x40000000
LIBC = ctypes.CDLL(None, use_errno=True)


class Refused(Exception):
    """The machine gives no network namespaces."""


def ip(*words):
    """A command of iproute2."""
    try:
        subprocess.run(["ip", *words], check=True, stdout=subprocess.DEVNULL, stderr=subprocess.PIPE, text=True)
    except FileNotFoundError as why:
        raise Refused("the program ip is missing") from why
    except subprocess.CalledProcessError as why:
        raise Refused(f"ip {' '.join(words)}: {why.stderr.strip()}") from why


class Net:
    """Namespaces of these names, with an address each. The bridge is in a namespace of its own."""

    def __init__(self, *names):
        self.tag, self.names, self.made = f"ring{os.getpid()}", names, []
        try:
            self.add("hub")
            ip("-n", self.space("hub"), "link", "add", "bridge", "type", "bridge")
            ip("-n", self.space("hub"), "link", "set", "bridge", "up")
            for name in names:
                self.connect(name)
        except Refused:
            self.close()
            raise

    def space(self, name):
        """The name of a namespace for the whole machine."""
        return f"{self.tag}-{name}"

    def address(self, name):
        """The address of a namespace."""
        return f"10.77.0.{self.names.index(name) + 1}"

    def add(self, name):
        """Makes a namespace."""
        ip("netns", "add", self.space(name))
        self.made.append(name)
        ip("-n", self.space(name), "link", "set", "lo", "up")

    def connect(self, name):
        """Makes a namespace, and connects it to the bridge."""
        self.add(name)
        inner, hub = self.space(name), self.space("hub")
        ip("-n", inner, "link", "add", "eth0", "type", "veth", "peer", "name", name, "netns", hub)
        ip("-n", inner, "addr", "add", f"{self.address(name)}/24", "dev", "eth0")
        ip("-n", inner, "link", "set", "eth0", "up")
        ip("-n", hub, "link", "set", "dev", name, "master", "bridge", "up")

    def before(self, name):
        """The words before a command that is to run in a namespace."""
        return ("ip", "netns", "exec", self.space(name))

    def cut(self, name):
        """Cuts a namespace off: nothing reaches it, and nothing comes from it."""
        ip("-n", self.space("hub"), "link", "set", "dev", name, "down")

    def heal(self, name):
        """Connects a namespace again."""
        ip("-n", self.space("hub"), "link", "set", "dev", name, "up")

    @contextlib.contextmanager
    def inside(self, name):
        """The thread that calls is in a namespace meanwhile."""
        with open("/proc/thread-self/ns/net", "rb") as here, open(f"/run/netns/{self.space(name)}", "rb") as there:
            enter(there)
            try:
                yield
            finally:
                enter(here)

    def close(self):
        """Removes the namespaces."""
        for name in self.made:
            with contextlib.suppress(Refused):
                ip("netns", "del", self.space(name))


def enter(file):
    """Has the thread that calls go into the namespace of a file."""
    if LIBC.setns(file.fileno(), CLONE_NEWNET):
        raise Refused(os.strerror(ctypes.get_errno()))
