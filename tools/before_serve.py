#!/usr/bin/env python3
"""Says what can be seen to be wrong with the words of `canvas serve` before it starts.

usage: tools/before_serve.py ADDRESS FILE

Prints on standard error what is wrong with the file or the address, with status 4. It opens no file, and gives the address back at once.
"""

import errno
import os
import socket
import sys


NEXT = {errno.EADDRINUSE: "ss -ltnp tells which program listens there", errno.EADDRNOTAVAIL: "ip addr tells the addresses of this machine",
        errno.EACCES: "only root may have a port below 1024"}
"""What to do about a fault of an address."""


class Wrong(Exception):
    """What is wrong, in words, and what to do."""


def look_at_file(name):
    if not os.path.exists(name):
        raise Wrong(f"there is no file {name}; serve a saved document, as examples/poster.json")
    if os.path.isdir(name):
        raise Wrong(f"{name} is a folder, and no saved document; canvasd serves a folder")
    if not os.access(name, os.R_OK):
        raise Wrong(f"the file {name} can't be read: permission denied; ls -l tells whom it belongs to")


def parts_of(address):
    """The host and the port of an address."""
    host, colon, port = address.rpartition(":")
    if not colon:
        raise Wrong(f"the address {address} has no port: it is HOST:PORT, as 127.0.0.1:7878")
    digits = port.removeprefix("+")
    if not (digits.isascii() and digits.isdigit() and int(digits) <= 65535):
        raise Wrong(f"the address {address} has no port from 0 to 65535 behind its colon")
    if not host:
        raise Wrong(f"the address {address} has no host: it is HOST:PORT, as 127.0.0.1:{port}")
    return host, int(digits)


def places_of(address):
    """The family and the socket address of each place that an address may be."""
    host, port = parts_of(address)
    if host.startswith("[") and host.endswith("]"):
        host = host[1:-1]
    try:
        if host != "*":  # (some resolvers know it, the program does not)
            return [(it[0], it[4]) for it in socket.getaddrinfo(host, port, type=socket.SOCK_STREAM)]
    except (OSError, UnicodeError):
        pass
    raise Wrong(f"the host of the address {address} is not known; 127.0.0.1 is this machine")


def fault_of(family, place):
    """Why a server can't have this place, or None. It is free again when this returns, and no one could connect to it meanwhile."""
    try:
        with socket.socket(family, socket.SOCK_STREAM) as tried:
            tried.setsockopt(socket.SOL_SOCKET, socket.SO_REUSEADDR, 1)
            tried.bind(place)
    except OSError as fault:
        return fault
    return None


def look_at_address(address):
    faults = [fault_of(*it) for it in places_of(address)]
    if all(faults):
        raise Wrong("; ".join([f"the address {address} can't be used: {faults[-1].strerror.lower()}", *filter(None, [NEXT.get(faults[-1].errno)])]))


def main():
    if len(sys.argv) != 3:
        sys.exit("usage: before_serve.py ADDRESS FILE")
    address, file = sys.argv[1:]
    try:
        look_at_file(file)
        look_at_address(address)
    except Wrong as wrong:
        print(f"canvas: {wrong}", file=sys.stderr)
        sys.exit(4)


if __name__ == "__main__":
    main()
