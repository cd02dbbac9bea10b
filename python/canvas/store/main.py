"""Keeps the documents of canvasd in PostgreSQL, so that several hosts can serve them, each document by one host at a
time.

usage: canvas-store serve [--socket PATH] [--status HOST:PORT] [--host NAME] [--names FILE]
       canvas-store list
       canvas-store create NAME
       canvas-store import FOLDER NAME
       canvas-store export NAME FOLDER
       canvas-store remove NAME
       canvas-store schema

  serve    the agent: one for each host, for all its `canvasd --store unix:PATH`. PATH is /run/canvas-store/door where
           it is left out, NAME the host's own. HOST:PORT tells how it does, over HTTP: /healthz, /metrics; and
           haproxy's agent check whether documents should come to this host. FILE gets the name of each document, a line
           each, for `canvas-admin follow`
  list     each document: its name, generation, turns, and the host that serves it, or -
  create   makes a document, which begins empty
  import   makes a document of a folder of canvasd that is not served
  export   makes such a folder of a document, also while it is served
  remove   takes out a document that nobody serves, for ever
  schema   writes the tables, for psql

The database is what the environment's CANVAS_DATABASE says, or else systemd's credential `database`, or the file
/etc/canvas/database, as libpq reads it (`host=h1 dbname=canvas user=canvas`). It has to be the leader, and its
`synchronous_standby_names` says what a kept edit outlives. The status is 1 if something is refused, and 2 if the words
are no command.
"""

from __future__ import annotations

import argparse
import asyncio
import logging
import socket
import sys

from canvas.needs import end_without

try:
    import psycopg

    from canvas.store import commands
    from canvas.store.database import DATABASE, one_line
    from canvas.store.serving import serve
except ModuleNotFoundError as missing:
    end_without("canvas-store", missing)

PARTS = {"list": (), "create": ("name",), "import": ("folder", "name"), "export": ("name", "folder"),
         "remove": ("name",), "schema": ()}
"""The other commands, and what follows each."""


def words() -> argparse.Namespace:
    description, _, more = (__doc__ or "").partition("\n\nusage: ")
    usage, _, meaning = more.partition("\n\n")
    found = argparse.ArgumentParser("canvas-store", usage=usage, description=description, epilog=meaning,
                                    formatter_class=argparse.RawDescriptionHelpFormatter)
    parsers = found.add_subparsers(dest="word", required=True, prog="canvas-store")
    agent = parsers.add_parser("serve")
    agent.add_argument("--socket", default="/run/canvas-store/door")
    agent.add_argument("--status")
    agent.add_argument("--host", default=socket.gethostname())
    agent.add_argument("--names")
    for name, parts in PARTS.items():
        command = parsers.add_parser(name)
        for part in parts:
            command.add_argument(part)
    return found.parse_args()


def run(given: argparse.Namespace) -> None:
    """Does what a command says."""
    if given.word == "serve":
        asyncio.run(serve(given))
    elif given.word == "list":
        commands.list_all()
    elif given.word == "create":
        commands.create(given.name)
    elif given.word == "import":
        commands.import_folder(given.folder, given.name)
    elif given.word == "export":
        commands.export_to(given.name, given.folder)
    elif given.word == "remove":
        commands.remove(given.name)
    else:
        commands.schema()


def main() -> None:
    given = words()
    logging.basicConfig(format="%(message)s", level=logging.INFO)
    logging.getLogger("psycopg").setLevel(logging.CRITICAL)
    try:
        run(given)
    except psycopg.OperationalError as fault:
        sys.exit(f"canvas-store: {one_line(fault)}; CANVAS_DATABASE, or else {DATABASE}, names the database")
    except (commands.Refused, OSError, ValueError, psycopg.Error) as fault:
        sys.exit(f"canvas-store: {one_line(fault)}")
