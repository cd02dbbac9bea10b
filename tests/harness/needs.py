"""What tests need of a machine, and what is said where it is not there: one line with the command that installs it."""

import functools
import os
import shutil
from pathlib import Path

import pytest

from harness import machine

COMMANDS = {
    "strace": "strace", "cc": "gcc libc6-dev", "promtool": "prometheus", "node": "nodejs", "chromium": "chromium", "shellcheck": "shellcheck",
    "pyflakes3": "pyflakes3", "flake8": "flake8", "mypy": "mypy python3-typeshed", "tsc": "node-typescript", "systemd-nspawn": "systemd systemd-container", "nginx": "nginx", "socat": "socat", "curl": "curl", "openssl": "openssl",
    "haproxy": "haproxy", "etcd": "etcd-server", "patroni": "patroni", "ip": "iproute2", "systemd-analyze": "systemd",
}
"""The Debian packages of commands."""
FILES = {"/usr/lib/postgresql/15/bin/initdb": "postgresql-15", "/usr/lib/nginx/modules/ngx_stream_module.so": "libnginx-mod-stream",
         "/usr/share/nodejs/@types/node": "nodejs"}
"""The Debian packages of files."""
MODULES = {"aiohttp": "python3-aiohttp", "PIL": "python3-pil", "psycopg": "python3-psycopg", "hypothesis": "python3-hypothesis", "etcd": "python3-etcd",
           "prometheus_client": "python3-prometheus-client"}
"""The Debian packages of modules of Python."""
HOSTING = ("systemd-nspawn", "nginx", "/usr/lib/nginx/modules/ngx_stream_module.so", "socat", "curl", "openssl")
MARKS = {
    "browser": ("chromium",),
    "root": ("root",),
    "database": ("/usr/lib/postgresql/15/bin/initdb",),
    "hosts": ("root", *HOSTING, "containers"),
}
"""What a marker says that a test needs; `needs` names more."""


def missing(item):
    """Why a test can't run here, or None."""
    for name in (needed for mark in item.iter_markers() for needed in (*MARKS.get(mark.name, ()), *(mark.args if mark.name == "needs" else ()))):
        if why := absent(name):
            return why
    if "no_program" not in item.keywords:
        return unbuilt()
    return None


@functools.cache
def absent(name):
    """Why there is not what this names, or None."""
    if name == "root":
        return None if os.geteuid() == 0 else "this needs the rights of root: sudo python3 -m pytest tests"
    if name == "containers":
        why = machine.is_possible()
        return why and f"no container can be made here: {why}"
    if name in FILES:
        return None if Path(name).exists() else f"{name} is not there: apt-get install {FILES[name]}"
    return None if shutil.which(name) else f"the command {name} is not there: apt-get install {COMMANDS.get(name, name)}"


BUILDS = {"canvas": "bin/canvas script < /dev/null", "canvasd": "bin/canvasd check /nowhere"}
"""What builds a program that is not built."""


@functools.cache
def unbuilt():
    for name, command in BUILDS.items():
        program = os.environ[name.upper()]
        if not os.access(program, os.X_OK):
            return f"the program {program} is not there: {command} builds it, or --{name} names another one"
    return None


def missing_import(fault):
    """What is said where a file can't be read for want of a package, or None."""
    package = MODULES.get((fault.name or "").partition(".")[0]) if isinstance(fault, ModuleNotFoundError) else None
    return package and f"the module {fault.name} of Python is not there: apt-get install {package}"


def need(*names):
    """Skips the rest of a test where one of these is not there."""
    for name in names:
        if why := absent(name):
            pytest.skip(why)
