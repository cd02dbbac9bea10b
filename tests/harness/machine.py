"""A machine for tests: systemd as process 1 of a container over the files of this machine, with the built Debian package installed.

Its tests run in namespaces of their own (tests/hosts/conftest.py). What the container writes lies in memory, over this machine's files, which stay as they
are. The tests and the container share the network, in which there is nobody else; or there are several containers, each a host of a network that the tests
make (`network`). It takes root, Debian's systemd-container, and a kernel that lets it.
"""

import errno
import fcntl
import os
import re
import resource
import shutil
import signal
import socket
import struct
import subprocess
import time
import uuid
from pathlib import Path

TRIAL = "mount -t tmpfs tmpfs /mnt; cd /mnt; mkdir upper work root; mount -t overlay overlay -o lowerdir=/,upperdir=/mnt/upper,workdir=/mnt/work root"
"""Mounts files over this machine's own."""
NAMESPACES = ("unshare", "--mount", "--net", "--pid", "--fork", "--kill-child", "--mount-proc")
KEPT = ("systemd-journald.service", "systemd-journald.socket", "systemd-journald-dev-log.socket", "systemd-tmpfiles-setup.service", "nginx.service")
"""What is started beside what a check starts; of this machine's own units no other one is."""
IN_GROUPS = 'while [ "$1" != -- ]; do mkdir "$1"; echo $$ > "$1/cgroup.procs"; shift; done; shift; exec "$@"'
"""Runs a command in control groups of its own. Machines that shared one would take each other's units out of it."""
SECONDS = 300
PATH = "/usr/sbin:/usr/bin:/sbin:/bin"


def is_possible():
    """Why no such machine can be made here, or None."""
    if os.geteuid() != 0:
        return "only root can make a machine of its own"
    for name in ("systemd-nspawn", "unshare", "nsenter"):
        if not shutil.which(name):
            return f"there is no {name}"
    done = subprocess.run([*NAMESPACES, "sh", "-euc", TRIAL], capture_output=True, text=True)
    return (done.stderr.strip() or "it allows no mounts") if done.returncode else None


def bring_up():
    """Brings up the network's own device, in namespaces that have just been made."""
    with socket.socket() as it:
        fcntl.ioctl(it, 0x8914, struct.pack("16sh22x", b"lo", 0x1 | 0x40))  # (SIOCSIFFLAGS, IFF_UP and IFF_RUNNING)


def ip(*words):
    subprocess.run(["ip", *words], check=True)


def network(names):
    """A network of the check, 10.77.0.254, and hosts of these names, from 10.77.0.1 on."""
    os.makedirs("/run/netns", exist_ok=True)
    mount("tmpfs", "canvas-check", "/run/netns", "size=1m")
    ip("link", "add", "hosts", "type", "bridge")
    ip("address", "add", "10.77.0.254/24", "dev", "hosts")
    ip("link", "set", "hosts", "up")
    for number, name in enumerate(names, 1):
        ip("netns", "add", name)
        ip("link", "add", name, "type", "veth", "peer", "name", "eth0", "netns", name)
        ip("link", "set", name, "master", "hosts", "up")
        ip("-n", name, "address", "add", f"10.77.0.{number}/24", "dev", "eth0")
        for device in ("lo", "eth0"):
            ip("-n", name, "link", "set", device, "up")


def control_groups():
    """The groups of this process by which systemd keeps the processes of units: that of version 2, and that of its own hierarchy where there is one."""
    paths = dict(line.split(":", 2)[1:] for line in Path("/proc/self/cgroup").read_text().splitlines())
    for line in Path("/proc/self/mounts").read_text().splitlines():
        _, at, kind, options, *_ = line.split()
        name = "name=systemd" if "name=systemd" in options.split(",") else ""
        if (kind == "cgroup2" or kind == "cgroup" and name) and name in paths:
            yield Path(at) / paths[name].strip("/")


def remove_group(group):
    """Removes a control group with those in it, whose processes have been killed."""
    end = time.monotonic() + SECONDS
    for folder, _, _ in os.walk(group, topdown=False):
        while True:
            try:
                os.rmdir(folder)
                break
            except OSError as why:
                if why.errno != errno.EBUSY or time.monotonic() > end:
                    raise
                time.sleep(0.05)


def mount(kind, name, target, options):
    subprocess.run(["mount", "-t", kind, "-o", options, name, str(target)], check=True)


class Machine:
    """A container of systemd over an empty folder, which is filled with memory until it is closed. One with a name is the host of that name in the
    check's network. This machine's services that are `idle` are there and not started."""

    def __init__(self, folder, package, name=None, idle=()):
        self._folder, self.name, self._idle, self._process, self._groups = Path(folder), name, idle, None, []
        self.root = self._folder / "root"
        mount("tmpfs", "canvas-check", self._folder, "size=4g")
        for name in ("upper", "work", "root"):
            (self._folder / name).mkdir()
        mount("overlay", "canvas-check", self.root, f"lowerdir=/,upperdir={self._folder}/upper,workdir={self._folder}/work")
        self._quieten()
        self._install(package)

    def _quieten(self):
        """Has none of this machine's own services started."""
        units = self.root / "etc" / "systemd" / "system"
        for folder in (units, self.root / "lib" / "systemd" / "system"):
            for wants in folder.glob("*.target.wants/*"):
                if wants.name in self._idle:
                    wants.unlink()
                elif wants.name not in KEPT and not (units / wants.name).exists():
                    (units / wants.name).symlink_to("/dev/null")

    def _install(self, package):
        (self.root / "package.deb").write_bytes(package.read_bytes())
        words = ["chroot", str(self.root), "dpkg", "--install", "/package.deb"]
        subprocess.run(words, check=True, stdin=subprocess.DEVNULL, capture_output=True, env={"PATH": PATH, "DEBIAN_FRONTEND": "noninteractive"})

    def boot(self):
        """Starts systemd, and waits until it takes commands."""
        self.log = (self._folder / "boot.log").open("ab")
        words = ["systemd-nspawn", "--quiet", "--register=no", "--keep-unit", f"--machine={self.name or 'canvas-check'}", f"--directory={self.root}"]
        words += ["--link-journal=no", f"--rlimit=NOFILE={resource.getrlimit(resource.RLIMIT_NOFILE)[1]}"]
        words += [*([f"--network-namespace-path=/run/netns/{self.name}"] if self.name else []), "--boot"]
        group = f"canvas-check-{uuid.uuid4().hex}"
        self._groups = [it / group for it in control_groups()]
        words = ["sh", "-euc", IN_GROUPS, "sh", *map(str, self._groups), "--", *words]
        self._process = subprocess.Popen(words, stdin=subprocess.DEVNULL, stdout=self.log, stderr=self.log)
        end = time.monotonic() + SECONDS
        while not (self._leader() and self.run("systemctl", "is-active", "--quiet", "basic.target").returncode == 0):
            if self._process.poll() is not None or time.monotonic() > end:
                raise RuntimeError(f"systemd did not start: {(self._folder / 'boot.log').read_text()[-2000:]}")
            time.sleep(0.1)

    def is_up(self):
        return self._process is not None and self._process.poll() is None and self._leader() is not None

    def halt(self):
        """Ends it as a failure of power does. It can be started again."""
        if self.is_up():
            os.kill(self._leader(), signal.SIGKILL)
        self._process.kill()
        self._process.wait()
        self.log.close()
        while self._groups:
            remove_group(self._groups.pop())

    def close(self):
        """Ends it, and takes its files away."""
        self.halt()
        for folder in (self.root, self._folder):
            subprocess.run(["umount", "--lazy", str(folder)], check=True)

    def __enter__(self):
        return self

    def __exit__(self, *_):
        self.close()

    def _leader(self):
        """The number of the container's process 1 as the check sees it, or None."""
        found = Path(f"/proc/{self._process.pid}/task/{self._process.pid}/children").read_text().split()
        return int(found[0]) if found else None

    def path(self, name):
        """A path of the container as the check names it."""
        return Path(f"/proc/{self._leader()}/root{name}")

    def run(self, *words, **how):
        """Runs a command in the container; gives what subprocess.run does, with texts."""
        inside = ["nsenter", f"--target={self._leader()}", "--mount", "--uts", "--ipc", "--pid", *(["--net"] if self.name else [])]
        inside += ["--root", "--wd", "--", "env", "-i", "-C", "/", f"PATH={PATH}", "LANG=C.UTF-8"]
        return subprocess.run([*inside, *map(str, words)], **{"capture_output": True, "text": True, "stdin": subprocess.DEVNULL, "timeout": SECONDS, **how})

    def must(self, *words):
        """What a command says that has to succeed."""
        done = self.run(*words)
        if done.returncode:
            raise RuntimeError(f"{words}: status {done.returncode}: {done.stderr}{done.stdout}")
        return done.stdout

    def property(self, unit, name):
        return self.must("systemctl", "show", f"--property={name}", "--value", unit).strip()

    def outside(self, number):
        """The number of a process of the container as the check sees it."""
        for status in Path("/proc").glob("[0-9]*/status"):
            try:
                numbers = re.search(r"^NSpid:\s+(.*)$", status.read_text(), re.M)[1].split()
            except OSError:
                continue  # it has ended
            if numbers[-1] == str(number) and len(numbers) > 1:
                return int(status.parent.name)
        raise RuntimeError(f"there is no process {number}")

    def kill(self, unit):
        """kill -9 of all processes of a unit."""
        self.must("systemctl", "kill", "--signal=KILL", unit)

    def journal(self, unit):
        return self.must("journalctl", "--no-pager", "--output=cat", f"--unit={unit}")
