"""A tab of the viewer without a browser: what its page says to the gateway, for the checks that have hundreds."""

import asyncio

import aiohttp

PATIENCE = 120
"""Seconds after which what has not come back counts as lost: many more than it takes."""


class Tab:
    """A tab without a page. `seen` is the newest version that it was told of; `fault` says where it was told of an older one."""

    @classmethod
    async def open(cls, client, page):
        """A tab of the page at this address, once the server is there."""
        tab = cls()
        tab.number = tab.seen = 0
        tab.fault = None
        tab.socket = await asyncio.wait_for(client.ws_connect(f"{page}session", max_msg_size=0), PATIENCE)
        await tab._until(lambda found: found.get("say") == "here")
        return tab

    async def ask(self, *requests):
        """The replies to a batch; EOFError where the server is away."""
        self.number += 1
        seen = self.seen
        await self.socket.send_json({"batch": self.number, "requests": requests})
        replies = (await self._until(lambda found: found.get("batch") == self.number))["replies"]
        if replies is None:
            raise EOFError("the server is away")
        for reply in replies:
            if "version" in reply:
                self._see(reply["version"], seen)
        return replies

    def _see(self, version, seen):
        if version < seen:
            self.fault = f"version {version} was told behind {seen}"
        self.seen = max(self.seen, version)

    async def _until(self, is_it):
        """The next message that is wanted."""
        while True:
            message = await asyncio.wait_for(self.socket.receive(), PATIENCE)
            if message.type == aiohttp.WSMsgType.BINARY:
                continue
            if message.type != aiohttp.WSMsgType.TEXT:
                raise EOFError("the gateway is away")
            found = message.json()
            if found.get("say") == "edits":
                versions = [edit["version"] for edit in found["edits"]]
                if versions != [*range(versions[0], versions[0] + len(versions))]:
                    self.fault = f"the edits {versions} were told"
                self.seen = max(self.seen, versions[-1])
            if is_it(found):
                return found

    async def comes_to(self, version):
        """Waits until it was told of a version."""
        while self.seen < version:
            await self._until(lambda found: found.get("say") == "edits")

    async def close(self):
        await self.socket.close()
