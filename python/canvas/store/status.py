"""What the agent tells of itself over HTTP: /healthz and /metrics; and haproxy's agent check."""

from __future__ import annotations

import asyncio
import contextlib
from asyncio import StreamReader, StreamWriter
from collections.abc import Iterator

from prometheus_client import CollectorRegistry, generate_latest
from prometheus_client.core import CounterMetricFamily, GaugeMetricFamily, Metric
from prometheus_client.registry import Collector

from canvas.store.agent import WAIT, Agent


class Figures(Collector):
    """The counts of an agent as Prometheus takes them."""

    def __init__(self, agent: Agent) -> None:
        self._agent = agent

    def collect(self) -> Iterator[Metric]:
        counts, held = self._agent.host.counts, sum(it is not None for it in self._agent.holdings.values())
        for name, text, value in (("documents", "documents that this host serves", held),
                                  ("lease", "whether the host has its lease", int(not self._agent.lease.fault()))):
            yield GaugeMetricFamily(f"canvas_store_{name}", text, value)
        for name, text, count in (
                ("syncs", "turns that were kept", counts.syncs),
                ("sync_seconds", "how long they took", counts.seconds),
                ("bytes", "bytes of journals that were kept", counts.bytes),
                ("lost", "documents that were lost or given up", counts.lost),
                ("bad", "connections that were ended for what they sent", counts.bad),
                ("accept_faults", "connections that could not be accepted when they came", counts.unaccepted)):
            yield CounterMetricFamily(f"canvas_store_{name}", text, count)


class Status:
    """Answers those who ask how an agent does, one request each."""

    def __init__(self, agent: Agent) -> None:
        self._agent, self._registry = agent, CollectorRegistry()
        self._registry.register(Figures(agent))

    async def tell(self, reader: StreamReader, writer: StreamWriter) -> None:
        """Answers one request for /healthz or /metrics, or haproxy's agent check, which is a line `agent`."""
        with contextlib.suppress(OSError, asyncio.IncompleteReadError, asyncio.LimitOverrunError, asyncio.TimeoutError):
            words = await asyncio.wait_for(words_of(reader), WAIT)
            if words == [b"agent"]:
                writer.write(b"drain\n" if self._agent.lease.fault() else b"ready\n")
            else:
                writer.write(self._page(words))
        writer.close()

    def _page(self, words: list[bytes]) -> bytes:
        fault = self._agent.lease.fault()
        if words[:2] == [b"GET", b"/metrics"]:
            status, content = "200 OK", generate_latest(self._registry)
        elif words[:2] == [b"GET", b"/healthz"]:
            status, content = ("503 Service Unavailable", f"{fault}\n".encode()) if fault else ("200 OK", b"ok\n")
        else:
            status, content = "404 Not Found", b"there are /healthz and /metrics\n"
        head = (f"HTTP/1.1 {status}\r\nContent-Type: text/plain; version=0.0.4\r\nContent-Length: {len(content)}\r\n"
                "Connection: close\r\n\r\n")
        return head.encode() + content


async def words_of(reader: StreamReader) -> list[bytes]:
    """The words of the first line of a request, when all of its head has come."""
    words = (await reader.readuntil(b"\n")).split()
    while words != [b"agent"] and (await reader.readuntil(b"\n")).strip():
        pass
    return words
