"""One process at a time has a journal, whatever became of the file `lock`; and where the journal's name does not lead to it any more, the server ends."""

import json
import os
import shutil
import subprocess
import time

import pytest

from harness.running import BAD_PLACE, BUILT_KEEPER, LOST_JOURNAL, POINT, Running, kept_words, read_line, wait_for

GROUP = {"verb": "create", "shape": {"kind": "group"}}
SOON = 1.0
"""Seconds after which the server has looked at its journal again: four times the time between two looks."""
LATEST = 4.0
"""Seconds after which nothing is answered any more, at a busy machine."""


def edited(server, count=1):
    """The version after so many edits of a session."""
    with server.connect() as canvas:
        return [canvas.ask(**GROUP)[0]["version"] for _ in range(count)][-1]


def status_of_another(folder):
    """How a second server of the folder ends, at doors of its own, and what it says."""
    with Running(kept_words(folder)) as other:
        return other.end(), other.errors()


def looks_until_the_end(server, change):
    """When the last look of a session was answered, in seconds after a change."""
    with server.socket() as sock:
        sock.sendall(POINT)
        assert b'"ok":true' in read_line(sock)
        change()
        begun = last = time.monotonic()
        while time.monotonic() < begun + 2 * LATEST:
            try:
                sock.sendall(POINT)
                line = read_line(sock)
            except OSError:
                break
            if not line:
                break
            last = time.monotonic()
    return last - begun


def test_without_the_file_lock_a_second_server_ends(tmp_path):
    folder = tmp_path / "kept"
    with Running(kept_words(folder)) as server:
        assert edited(server, 3) == 3
        (folder / "lock").unlink()
        status, said = status_of_another(folder)
        assert (status, said) == (BAD_PLACE, f"canvasd: another process serves the folder {folder}\n".encode())
        time.sleep(SOON)
        assert edited(server) == 4
    with Running(kept_words(folder)) as server:
        assert edited(server) == 5


def test_the_lock_goes_on_to_the_next_generation(tmp_path):
    folder = tmp_path / "kept"
    with Running(kept_words(folder, "--limit", "3")) as server:
        edited(server, 3)
        assert wait_for((folder / "2" / "journal.jsonl").exists)
        assert edited(server) == 1
        (folder / "lock").unlink()
        assert status_of_another(folder)[0] == BAD_PLACE
        time.sleep(SOON)
        assert edited(server) == 2


def removed(folder):
    shutil.rmtree(folder)


def moved_away(folder):
    folder.rename(folder.with_name("elsewhere"))


def restored(folder):
    """A copy takes the folder's place, as where a backup is restored under a running server."""
    copy = folder.with_name("copy")
    shutil.copytree(folder, copy)
    moved_away(folder)
    copy.rename(folder)


def rewritten(folder):
    """The journal alone is another file, as many editors write one."""
    journal = folder / "1" / "journal.jsonl"
    shutil.copy(journal, folder / "new")
    os.replace(folder / "new", journal)


@pytest.mark.parametrize("change, why", [(removed, "not there any more: No such file or directory"), (moved_away, "not there any more: No such file"),
                                         (restored, "is another file than the one that was served"), (rewritten, "is another file")])
@pytest.mark.parametrize("more", [(), ("--status", "127.0.0.1:0"), ("--feed", "127.0.0.1:0")])
def test_a_journal_whose_name_leads_elsewhere_ends_the_server(tmp_path, change, why, more):
    folder = tmp_path / "kept"
    with Running(kept_words(folder, *more)) as server:
        edited(server, 2)
        assert looks_until_the_end(server, lambda: change(folder)) < LATEST
        assert server.end() == LOST_JOURNAL
        said = server.errors().decode().splitlines()[-1]
        assert said.startswith(f"canvasd: the journal {folder}/1/journal.jsonl ") and why in said


def test_edits_that_go_on_end_too(tmp_path):
    folder = tmp_path / "kept"
    with Running(kept_words(folder)) as server, server.connect() as canvas:
        canvas.ask(**GROUP)
        removed(folder)
        begun = last = time.monotonic()
        with pytest.raises((OSError, EOFError, ValueError)):
            while time.monotonic() < begun + 2 * LATEST:
                canvas.ask(**GROUP)
                last = time.monotonic()
        assert last - begun < LATEST
        assert server.end() == LOST_JOURNAL


def test_what_was_moved_away_is_whole(tmp_path):
    folder = tmp_path / "kept"
    with Running(kept_words(folder)) as server:
        edited(server, 5)
        moved_away(folder)
        assert server.end() == LOST_JOURNAL
    with Running(kept_words(folder.with_name("elsewhere"))) as server:
        assert edited(server) == 6


def test_no_generation_is_begun_in_a_folder_that_was_put_there(tmp_path):
    folder = tmp_path / "kept"
    for _ in range(5):
        shutil.rmtree(tmp_path)
        tmp_path.mkdir()
        with Running(kept_words(folder, "--limit", "3")) as server, server.connect() as canvas:
            canvas.ask(**GROUP)
            canvas.ask(**GROUP)
            restored(folder)
            try:
                canvas.ask(**GROUP)
            except (OSError, EOFError, ValueError):
                pass
            assert server.end() == LOST_JOURNAL
        assert sorted(it.name for it in folder.iterdir()) == ["1", "lock"]


def test_a_follower_ends_too(tmp_path):
    with Running(kept_words(tmp_path / "kept", "--feed", "127.0.0.1:0")) as leader:
        edited(leader, 2)
        second = tmp_path / "second"
        words = [BUILT_KEEPER, "follow", leader.feeds[0], second, "--leader", leader.address, "--listen", "127.0.0.1:0", "--log", "error"]
        with Running(words) as follower:
            assert edited(follower) == 3
            assert looks_until_the_end(follower, lambda: removed(second)) < LATEST
            assert follower.end() == LOST_JOURNAL
        assert edited(leader) == 4


def test_those_who_read_a_served_folder_are_in_nobodys_way(tmp_path):
    folder = tmp_path / "kept"
    with Running(kept_words(folder)) as server:
        edited(server, 3)
        done = subprocess.run([BUILT_KEEPER, "check", folder], capture_output=True, check=True)
        assert b"1: opens, 3 edits" in done.stdout
        done = subprocess.run([BUILT_KEEPER, "history", folder, "2"], capture_output=True, check=True)
        assert json.loads(done.stdout)["next"] == 3
        subprocess.run(["cp", "-r", folder, tmp_path / "copy"], check=True)
        time.sleep(SOON)
        assert edited(server) == 4
    with Running(kept_words(tmp_path / "copy")) as server:
        assert edited(server) == 4
