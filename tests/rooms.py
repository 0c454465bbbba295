"""A room: a copy of this machine's file system, in which a check installs and removes packages.

All that is written in a room is kept in memory, over the files of the machine, which stay as they are. If the kernel
refuses such a mount, /etc, /usr and /var are copied to the disk of temporary files. The rest, also /usr/local, can only
be read then. A room has processes of its own, which end with it, and can have a network of its own. It needs root, unshare and
pivot_root of util-linux, and the right to mount. In a room systemd can be started, as on a machine of its own.
"""

import contextlib
import ctypes
import fcntl
import os
import pathlib
import socket
import struct
import subprocess
import tempfile
import time

from serving import PATIENCE, Differs

APART = ["unshare", "--mount", "--pid", "--fork", "--kill-child", "--ipc", "--uts"]
# What a room needs at least.
PROBE = "mount --make-rprivate / && mount -t tmpfs tmpfs /mnt"
TRIES = 3
# How many seconds systemd may take to begin. A check without it shows less, so a busy machine gets the time that it needs.
LONG = 120
# Where a room shows what was written there.
CHANGES = "/run/changes"
NEW_NETWORK, SET_FLAGS, UP = 0x40000000, 0x8914, 1
SYSTEMD = "/lib/systemd/systemd"
# Makes the room in the folder $1, with the repository $2 to be read, and runs the other words from $4 on there. If $3 is
# `copy`, or no overlay can be mounted, it is a copy. No index of manual pages is written there, as that takes seconds for
# each package.
MAKE = """
mount --make-rprivate /
changes=$1/upper
lay() {
    mount -t tmpfs -o mode=755 tmpfs "$1"
    mkdir "$1/upper" "$1/work" "$1/root"
    mount -t overlay -o "lowerdir=/,upperdir=$1/upper,workdir=$1/work" overlay "$1/root" && return
    umount "$1"
    echo "no overlay can be mounted here, so the room is a copy on the disk" >&2
    return 1
}
copy() {
    changes=$1/root
    mkdir "$1/root"
    mount --bind "$1/root" "$1/root"
    tar -c -C / --one-file-system --exclude=var/lib/docker --exclude=var/lib/containerd --exclude=var/cache/apt/archives \
        --exclude=usr/local etc usr var | tar -xp -C "$1/root"
    mkdir -p "$1/root/var/cache/apt/archives/partial" "$1/root/usr/local"
    for it in /* /usr/local; do
        case $it in
        /etc | /usr | /var) ;;
        /proc | /sys | /dev | /run | /tmp) mkdir "$1/root$it" ;;
        *)  if [ -L "$it" ]; then
                cp -a "$it" "$1/root"
            elif [ -d "$it" ]; then
                mkdir -p "$1/root$it"
                mount --bind "$it" "$1/root$it"
                mount -o remount,bind,ro "$1/root$it"
            fi ;;
        esac
    done
    [ -d /usr/local/bin ] || return 0
    mount -t tmpfs -o mode=755 tmpfs "$1/root/usr/local/bin"
    cp -a /usr/local/bin/. "$1/root/usr/local/bin"
}
if [ "$3" = copy ] || ! lay "$1"; then copy "$1"; fi
cp --remove-destination /etc/resolv.conf "$1/root/etc/resolv.conf" 2> /dev/null || true
cd "$1/root"
for it in run tmp dev; do mount -t tmpfs -o mode=755 tmpfs $it; done
chmod 1777 tmp
mkdir run/changes
mount --bind "$changes" run/changes
mount -t proc proc proc
mount --bind proc/sys proc/sys
mount -o remount,bind,ro proc/sys
for it in null zero full random urandom tty; do
    : > dev/$it
    mount --bind /dev/$it dev/$it
done
mkdir dev/pts dev/shm
mount -t devpts -o newinstance,ptmxmode=0666 devpts dev/pts
ln -s pts/ptmx dev/ptmx
ln -s /proc/self/fd dev/fd
mount -t tmpfs -o mode=1777 tmpfs dev/shm
mkdir -p "./$2"
mount --bind "$2" "./$2"
mount -o remount,bind,ro "./$2"
pivot_root . .
umount -l .
cd /
rm -f /var/lib/man-db/auto-update
shift 3
exec "$@"
"""
# Starts systemd in the group $1, with none of the capabilities that reach the machine below the room.
BOOT = """
echo 0 > "$1/cgroup.procs"
exec unshare --cgroup --mount sh -euc '
mount -t proc proc /proc
mount --bind /proc/sys /proc/sys
mount -o remount,bind,ro /proc/sys
mount -t sysfs -o ro sysfs /sys
mount -t cgroup2 cgroup2 /sys/fs/cgroup
mount -t tmpfs -o mode=755 tmpfs /run
exec setpriv --bounding-set "-sys_module,-sys_time,-sys_rawio,-sys_tty_config,-syslog,-audit_control,-audit_write" \\
    env -i PATH=/usr/sbin:/usr/bin:/sbin:/bin container=room "$0" --unit=basic.target --log-target=journal
' "$2"
"""


class NoSystemd(Exception):
    """systemd can't be started in this room."""


def enter(top, words, is_copy=False):
    """Runs these words in a new room, which can read the repository. Returns their status."""
    if os.geteuid():
        raise Differs("a room needs root")
    probe = subprocess.run([*APART, "sh", "-c", PROBE], capture_output=True, text=True, check=False)
    if probe.returncode:
        raise Differs(f"a room needs the right to mount (docker run --privileged): {probe.stderr.strip()}")
    with tempfile.TemporaryDirectory() as folder:
        how = "copy" if is_copy else "overlay"
        words = [*APART, "sh", "-euc", MAKE, "room", folder, os.fspath(top), how, *words]
        try:
            return subprocess.run(words, stdin=subprocess.DEVNULL, check=False).returncode
        finally:
            subprocess.run(["rm", "-rf", "--one-file-system", f"{folder}/root"], check=False)


def is_installed(package):
    """Whether a Debian package is installed in the room."""
    words = ["dpkg-query", "-W", "-f", "${db:Status-Status}", package]
    return subprocess.run(words, capture_output=True, check=False).stdout == b"installed"


def need(*packages):
    """Installs those of these Debian packages that are missing, in the room alone. Tries it three times."""
    env, told = dict(os.environ, DEBIAN_FRONTEND="noninteractive"), ""
    for _ in range(TRIES):
        missing = [it for it in packages if not is_installed(it)]
        if not missing:
            return
        for words in (["update"], ["install", "-y", "--no-install-recommends", *missing]):
            ran = subprocess.run(["apt-get", "-q", *words], env=env, capture_output=True, text=True, check=False)
            told = ran.stderr[-300:]
    missing = [it for it in packages if not is_installed(it)]
    if missing:
        raise Differs(f"apt-get did not install {' '.join(missing)}: {told}")


def cut_off():
    """Takes the machine's network away from the room, and leaves it a loopback of its own."""
    libc = ctypes.CDLL(None, use_errno=True)
    if libc.unshare(NEW_NETWORK):
        raise OSError(ctypes.get_errno(), "a network of its own")
    with socket.socket() as probe:
        fcntl.ioctl(probe, SET_FLAGS, struct.pack("16sh22x", b"lo", UP))


@contextlib.contextmanager
def group():
    """A control group below that of this process. It is removed at the end, with those in it."""
    lines = pathlib.Path("/proc/self/cgroup").read_text(encoding="utf-8").splitlines()
    own = [it.removeprefix("0::/") for it in lines if it.startswith("0::/")]
    root = pathlib.Path("/run/groups")
    root.mkdir(exist_ok=True)
    if not own or subprocess.run(["mount", "-t", "cgroup2", "cgroup2", root], check=False).returncode:
        raise NoSystemd("there are no control groups of version 2")
    made = root / own[0] / f"ringd-room-{time.monotonic_ns()}"
    try:
        make_group(made)
        yield made
    finally:
        remove_groups(made)
        subprocess.run(["umount", "-l", root], check=False)


def make_group(made):
    """Makes a control group."""
    try:
        made.mkdir()
    except OSError as error:
        raise NoSystemd(f"no control group can be made: {error}") from error


def remove_groups(made):
    """Removes a control group and those in it, once their processes have ended."""
    end = time.monotonic() + PATIENCE
    while made.exists() and time.monotonic() < end:
        for at, _, _ in os.walk(made, topdown=False):
            with contextlib.suppress(OSError):
                os.rmdir(at)
        time.sleep(0.05)


def first_child(pid):
    """The first child of a process, once it has one."""
    end = time.monotonic() + LONG
    while time.monotonic() < end:
        with contextlib.suppress(OSError):
            if children := pathlib.Path(f"/proc/{pid}/task/{pid}/children").read_text().split():
                return children[0]
        time.sleep(0.01)
    raise NoSystemd("it did not begin")


@contextlib.contextmanager
def systemd():
    """Starts systemd in the room. Yields the words that run a command where it is at work."""
    if not os.access(SYSTEMD, os.X_OK):
        raise NoSystemd("it is not here")
    pathlib.Path("/etc/systemd/system/timers.target").symlink_to("/dev/null")
    # Images for containers have one, which forbids packages to start what they bring.
    pathlib.Path("/usr/sbin/policy-rc.d").unlink(missing_ok=True)
    with group() as made:
        words = ["unshare", "--pid", "--fork", "--kill-child", "sh", "-euc", BOOT, "boot", os.fspath(made), SYSTEMD]
        run = subprocess.Popen(words, stdin=subprocess.DEVNULL, stdout=subprocess.PIPE, stderr=subprocess.STDOUT)
        try:
            within = ["nsenter", "--target", first_child(run.pid), "--mount", "--pid", "--cgroup", "--"]
            await_systemd(run, within)
            yield within
        finally:
            run.kill()
            run.communicate()


def await_systemd(run, within):
    """Waits until systemd has reached its target."""
    end = time.monotonic() + LONG
    words = [*within, "systemctl", "is-active", "--quiet", "basic.target"]
    while subprocess.run(words, capture_output=True, check=False).returncode:
        if run.poll() is not None:
            raise NoSystemd(f"it ended: {run.stdout.read().decode(errors='replace')[-300:]}")
        if time.monotonic() > end:
            raise NoSystemd("it did not reach its target")
        time.sleep(0.05)
