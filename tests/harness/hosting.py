"""What tests of hosts share: commands of docs/RUNNING.md, keys, and how long to wait."""

import asyncio
import json
import re
import ssl
import subprocess
import time
from pathlib import Path

import aiohttp

from repository import TOP

FAULTS = (OSError, EOFError, ValueError, KeyError, TypeError, asyncio.TimeoutError, asyncio.IncompleteReadError, aiohttp.ClientError, TimeoutError)
"""What tells a client that its connection is over."""
UNITS = ("canvas@.service", "canvas-gateway.service", "canvas-store.service", "canvas-door@.service", "canvas-documents.service")
"""Units of systemd that are read without a document's name, or with any."""
SHAPE = {"verb": "create", "shape": {"kind": "rect", "w": 40, "h": 30, "fill": "2f6fde"}}
POINT = {"verb": "point", "x": 0, "y": 0}


def commands_of(begin):
    """The commands of the block of docs/RUNNING.md that begins so, but for those that fetch packages."""
    block = re.search(rf"^```\n({re.escape(begin)}.*?)^```", (TOP / "docs" / "RUNNING.md").read_text(), re.M | re.S)
    return "\n".join(line for line in block[1].splitlines() if not line.startswith(("apt ", "#")))


class Keys:
    """Certificates: one of the site, one that signs those of clients, and clients: ann, ann lee and ben, and a stranger whom another one signed."""

    def __init__(self, folder):
        self._folder = Path(folder)
        self._call("req", "-x509", "-days", "2", "-subj", "/CN=127.0.0.1", "-addext", "subjectAltName=IP:127.0.0.1,DNS:*.canvas.example", *self._new("tls"))
        for name in ("clients", "others"):
            self._call("req", "-x509", "-days", "2", "-subj", f"/CN={name}", *self._new(name))
        for name, signer in (("ann", "clients"), ("ann lee", "clients"), ("ben", "clients"), ("stranger", "others")):
            self._call("req", "-subj", f"/CN={name}", *self._new(name, ".csr"))
            self._call("x509", "-req", "-days", "2", "-in", self.file(f"{name}.csr"), "-CA", self.file(f"{signer}.crt"), "-CAkey", self.file(f"{signer}.key"),
                       "-CAcreateserial", "-out", self.file(f"{name}.crt"))

    def file(self, name):
        return str(self._folder / name)

    def _new(self, name, ending=".crt"):
        return ("-newkey", "ec", "-pkeyopt", "ec_paramgen_curve:prime256v1", "-nodes", "-keyout", self.file(f"{name}.key"), "-out", self.file(name + ending))

    def _call(self, *words):
        subprocess.run(["openssl", *words], check=True, capture_output=True)

    def context(self, name=None):
        """What a client of this name, or one with no certificate, connects with."""
        found = ssl.create_default_context(cafile=self.file("tls.crt"))
        if name:
            found.load_cert_chain(self.file(f"{name}.crt"), self.file(f"{name}.key"))
        return found


class Editor:
    """Makes shapes in a document until it is stopped, over all that ends its connections. It knows what was answered: `times` has when each of these edits
    was asked for and answered."""

    def __init__(self, name, pause):
        self.name, self._pause = name, pause
        self.made, self.breaks, self.faults, self.times = {}, 0, [], []
        self._is_over = False
        self._task = asyncio.create_task(self._run())

    async def visit(self):
        """Edits on one connection."""
        raise NotImplementedError

    async def _run(self):
        while not self._is_over:
            try:
                await self.visit()
            except FAULTS:
                self.breaks += 1
            await asyncio.sleep(0.1)

    async def edit(self, ask):
        found = await ask(POINT)
        if found["version"] < max(self.made, default=0):
            self.faults.append(f"version {found['version']} after {max(self.made)}")
        while not self._is_over:
            begin = time.monotonic()
            reply = await ask(SHAPE)
            if not reply["ok"]:
                raise EOFError(reply["name"])
            if reply["version"] in self.made:
                self.faults.append(f"version {reply['version']} twice")
            self.times.append((begin, time.monotonic()))
            self.made[reply["version"]] = reply["id"]
            await asyncio.sleep(self._pause)

    async def stop(self):
        self._is_over = True
        await asyncio.wait([self._task])

    def lost_of(self, version, text):
        """What was answered and is not in a document of this version, or None."""
        ids = {shape["id"] for shape in json.loads(text)["shapes"]}
        missing = {it for it, number in self.made.items() if number not in ids or it > version}
        return f"{len(missing)} of {len(self.made)} answered edits are lost: {sorted(missing)[:5]}" if missing else None
