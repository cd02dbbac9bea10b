"""Builds lossy_disk.c, and gives the environments in which a program has its files on such a disk."""

import os
import subprocess
from pathlib import Path



def preload(source, folder):
    """The library of a C file of tools/, built in a folder, which a program can be started with."""
    library = Path(folder) / f"{Path(source).stem}.so"
    if set(str(library)) & set(" :"):
        raise ValueError(f"no program can be started with {library}: a blank or a colon ends its name")
    subprocess.run(["cc", "-shared", "-fPIC", "-O1", "-o", library, Path(__file__).with_name(source), "-ldl", "-lpthread"], check=True)
    return library


class Disk:
    """A disk for the files of one folder, which has to be there."""

    def __init__(self, folder):
        self._folder = os.path.realpath(folder)
        self._library = preload("lossy_disk.c", folder)
        self._told = Path(folder) / "told"

    def environment(self, **how):
        """An environment; `how` are the variables that lossy_disk.c tells of, as syncs="late" or kills=3."""
        self._told.unlink(missing_ok=True)
        named = {f"DISK_{name.upper()}": str(value) for name, value in how.items()}
        return {"LD_PRELOAD": str(self._library), "DISK_FOLDER": self._folder, "DISK_TOLD": str(self._told), **named}

    def has_told(self):
        """Whether a call failed or killed since the last environment was made."""
        return self._told.exists()
