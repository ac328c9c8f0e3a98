"""No crash loses acknowledged changes. TURNS is the number of crashes of each kind."""

from __future__ import annotations

import contextlib
import os
import shutil
import signal
import socket
import sys
import time
import unittest
from collections.abc import Callable
from pathlib import Path

from support import CELLS, PATIENCE, PROGRAM, TURNS, Hub, HubCase, Talker, spot, wait_gone, wait_until

from lefence.base.clock import SYSTEM_CLOCK
from lefence.hub.client_pool import ClientPool
from lefence.hub.status import read_status
from lefence.journal.segments import Archive

# Changes that each of four teams has in flight at a crash.
MANY = 2000


class Crashes(HubCase):
    # More options of the hub, and of each start of it.
    extra: tuple[str, ...] = ()
    programs: tuple[str, ...] = ()

    def words(
        self, *extra: str, sockets: str = "s", journal: str = "journal", design: Path | None = None
    ) -> list[str]:
        return super().words(*extra, *self.programs, sockets=sockets, journal=journal, design=design)

    def changes(self, team: int, revision: int) -> Talker:
        """A client that has sent many changes and got no replies."""
        talker = self.talk(f"f{team}")
        head = f"place f{team} {talker.ask(f'open f{team}')[0].split()[1]} f{team}c"
        lines = [f"{head}{at % CELLS} {spot(team, at)}\n" for at in range(revision, revision + MANY)]
        talker.socket.sendall("".join(lines).encode())
        return talker

    def check_team(self, team: int, revision: int) -> None:
        """Checks that a team's places are the result of this many changes."""
        watch = self.talk(f"f{team}")
        _, session, found = watch.ask(f"open f{team}")[0].split()
        self.assertEqual(int(found), revision)
        for cell in range(CELLS):
            newest = revision - 1 - (revision - 1 - cell) % CELLS
            reply = f"ok {spot(team, newest)}" if newest >= 0 else f"no 6 Unplaced f{team}c{cell}"
            self.assertEqual(watch.ask(f"where f{team} {session} f{team}c{cell}"), [reply])
        watch.ask("bye")

    def revision(self, team: int) -> int:
        watch = self.talk(f"f{team}")
        revision = int(watch.ask(f"open f{team}")[0].split()[2])
        watch.ask("bye")
        return revision

    def under_load(self, strike: Callable[[], None], keeps_clients: bool = False) -> None:
        """Crashes while four teams make changes. After each crash, all acknowledged changes are there, and at most
        those sent.
        """
        self.start(*self.extra)
        revisions, total, kept, cut = [0] * 4, 0, 0, set()
        for turn in range(TURNS):
            talkers = [self.changes(team, revision) for team, revision in enumerate(revisions)]
            # (the moments of crashes are random)
            time.sleep(self.rng.uniform(0, 0.04))
            strike()
            for team, talker in enumerate(talkers):
                if keeps_clients:
                    talker.socket.shutdown(socket.SHUT_WR)
                replies, begun = talker.all_replies(), revisions[team]
                acknowledged = begun + replies.count(b"\n")
                self.assertEqual(replies, b"".join(b"ok %d\n" % (number + 1) for number in range(begun, acknowledged)))
                revisions[team] = self.revision(team)
                self.assertTrue((begun + MANY if keeps_clients else acknowledged) <= revisions[team] <= begun + MANY)
                self.check_team(team, revisions[team])
                total, kept = total + acknowledged - begun, kept + revisions[team] - acknowledged
                cut |= {turn} if acknowledged < begun + MANY else set()
        print(
            f"\n  {TURNS} crashes, {len(cut)} amid changes: {total} acknowledged, 0 lost, {kept} more kept",
            file=sys.stderr,
        )

    def start_again(self) -> None:
        while self.rng.random() < 0.3:
            # And again during the restart.
            again = Hub(self.folder, self.words(*self.extra))
            time.sleep(self.rng.uniform(0, 0.4))
            again.kill()
        self.assertIn("ready", self.start(*self.extra))

    def kill_9_of_hub(self) -> None:
        self.hub.kill()
        self.start_again()

    def kill_9_of_server(self) -> None:
        os.kill(self.a_server(), signal.SIGKILL)

    def kill_9_of_a_program(self) -> None:
        """Kills the program that serves, or the one that saves a state, which may just have ended."""
        with contextlib.suppress(ProcessLookupError):
            os.kill(self.rng.choice([self.a_server(), *self.hub.children()]), signal.SIGKILL)

    def a_server(self) -> int:
        """The process id of a program that serves."""
        return int(self.rng.choice(read_status(self.folder / "s")["programs"])["pid"])

    def kill_9_of_both(self) -> None:
        self.addCleanup(wait_gone, self.hub.children())
        for pid in self.rng.sample([self.a_server(), self.hub.process.pid], 2):
            with contextlib.suppress(ProcessLookupError):
                # The program ends with the hub.
                os.kill(pid, signal.SIGKILL)
            time.sleep(self.rng.choice([0, 0.001, 0.03]))
        self.hub.process.wait()
        self.start_again()

    def test_kill_9_of_the_hub(self) -> None:
        self.under_load(self.kill_9_of_hub)

    def test_kill_9_of_both(self) -> None:
        self.under_load(self.kill_9_of_both)

    def test_kill_9_of_the_program_is_not_noticed(self) -> None:
        self.under_load(self.kill_9_of_server, keeps_clients=True)
        idle = self.talk("f7")
        self.assertEqual(idle.ask("open f7"), ["ok 0 0"])
        self.kill_9_of_server()
        self.assertEqual((idle.ask("sync f7 0"), self.hub.end()), (["ok 0"], 0))

    def test_kill_9_amid_checkpoints(self) -> None:
        self.extra = ("--tail-bytes", "1")
        self.under_load(self.kill_9_of_both)
        # (the last hub may still be at its first state)
        wait_until(lambda: Archive(self.journal).numbers("state"), self.hub.log_text)

    def test_kill_9_of_a_program_amid_checkpoints_is_not_noticed(self) -> None:
        self.extra = ("--tail-bytes", "1")
        self.under_load(self.kill_9_of_a_program, keeps_clients=True)

    def test_undo_and_padding_are_there_after_a_crash(self) -> None:
        self.start()
        self.talk("f0").ask("open f0", "place f0 0 f0c1 0 0 N", "pad f0 0 2", "place f0 0 f0c2 800 0 N")
        self.hub.kill()
        self.start()
        talker = self.talk("f0")
        lines = ["open f0", "place f0 0 f0c4 1400 0 N", "place f0 0 f0c4 1600 0 N"]
        self.assertEqual(talker.ask(*lines), ["ok 0 3", "no 7 Illegal 8 f0c4 f0c2", "ok 4"])
        lines = ["undo f0 0", "undo f0 0", "where f0 0 f0c2", "undo f0 0", "undo f0 0"]
        self.assertEqual(talker.ask(*lines), ["ok 5", "ok 6", "no 6 Unplaced f0c2", "ok 7", "no 9 NothingToUndo"])


class CrashesOfThree(Crashes):
    """The same with three programs."""

    programs = ("--programs", "3")


class Programs(HubCase):
    """A program that dies by itself."""

    def wrap(self, script: str) -> None:
        """Runs a script before the program that answers lines; it counts its starts in a file."""
        wrapper = self.folder / "wrapper"
        count = f"echo x >> '{self.folder}/starts'\nstarts=$(wc -l < '{self.folder}/starts')"
        describes = f'[ "$1" = replay ] || exec \'{PROGRAM}\' "$@"'
        wrapper.write_text(f"#!/bin/sh\n{describes}\n{count}\n{script}\nexec '{PROGRAM}' \"$@\"\n")
        wrapper.chmod(0o755)
        self.program = str(wrapper)

    def test_a_program_that_dies_while_it_is_restored_is_started_again(self) -> None:
        self.wrap('[ "$starts" -eq 1 ] || [ "$starts" -gt 4 ] || kill -9 $$')
        self.start()
        talker = self.talk("f0")
        self.assertEqual(talker.ask("open f0", "place f0 0 f0c1 0 0 N"), ["ok 0 0", "ok 1"])
        os.kill(self.hub.replay_pid(), signal.SIGKILL)
        self.assertEqual(talker.ask("where f0 0 f0c1", "place f0 0 f0c1 200 0 N"), ["ok 0 0 N", "ok 2"])
        self.assertEqual((self.hub.end(), (self.folder / "starts").read_text().count("x")), (0, 5))

    def test_a_program_that_always_dies_ends_the_hub_and_nothing_is_lost(self) -> None:
        self.wrap('[ "$starts" -eq 1 ] || kill -9 $$')
        self.start()
        talker = self.talk("f0")
        self.assertEqual(talker.ask("open f0", "place f0 0 f0c1 0 0 N"), ["ok 0 0", "ok 1"])
        os.kill(self.hub.replay_pid(), signal.SIGKILL)
        self.assertEqual((talker.ask("where f0 0 f0c1"), self.hub.process.wait(PATIENCE)), ([""], 3))
        self.assertIn("giving up", self.hub.log_text())
        self.program = PROGRAM
        self.start()
        self.assertEqual(self.talk("f0").ask("open f0", "where f0 0 f0c1"), ["ok 0 1", "ok 0 0 N"])

    def test_a_program_that_has_answered_its_last_line_is_restored(self) -> None:
        self.wrap('for word; do shift; [ "$word" != 4294967295 ] || word=1500; set -- "$@" "$word"; done')
        self.start()
        talker = self.talk("f0")
        self.assertEqual(talker.ask("open f0", "place f0 0 f0c1 0 0 N"), ["ok 0 0", "ok 1"])
        text = b"where f0 0 f0c1\n" * 5000
        self.assertEqual(talker.converse(text, 20000), b"ok 0 0 N\n" * 5000)
        self.assertIn("restoring 2 changes", self.hub.log_text())

    def test_a_program_that_is_replaced_is_used_until_the_hub_ends(self) -> None:
        installed = self.folder / "lefence"
        shutil.copy(PROGRAM, installed)
        self.program = str(installed)
        self.start("--programs", "2")
        talker, operator, exported = self.talk("f0"), self.talk("operator"), self.folder / "new.def"
        lines = ["open f0", "place f0 0 f0c1 0 0 N", "tidy f0 0", "commit f0 0"]
        self.assertEqual(talker.ask(*lines), ["ok 0 0", "ok 1", "ok 2 9", "ok 3"])
        other = self.folder / "other"
        other.write_text("#!/bin/sh\necho refused >&2\nexit 1\n")
        other.chmod(0o755)
        spoils: tuple[Callable[[], object], ...] = (lambda: other.rename(installed), installed.unlink)
        for spoil in spoils:
            spoil()
            programs = {team: each for each in read_status(self.folder / "s")["programs"] for team in each["teams"]}
            pid = programs["f0"]["pid"]
            # (lists of processes show the program as it was given)
            self.assertEqual(Path(f"/proc/{pid}/cmdline").read_bytes().split(b"\0")[0], bytes(installed))
            os.kill(pid, signal.SIGKILL)
            self.assertEqual(talker.ask("where f0 0 f0c1"), ["ok 0 0 N"])
            self.assertEqual(operator.ask(f"export {exported}"), ["ok"])
            self.assertIn("f0c1 INV + PLACED ( 0 0 ) N", exported.read_text())
        self.assertEqual(self.hub.end(), 0, self.hub.log_text())
        self.assertNotIn("/proc/", self.hub.log_text())

    def test_a_refusal_while_the_hub_serves_ends_it_with_3(self) -> None:
        self.wrap(f'[ "$starts" -eq 1 ] || {{ \'{PROGRAM}\' "$@" | sed -u "s/^ok 1$/ok 9/"; exit; }}')
        self.start()
        talker = self.talk("f0")
        self.assertEqual(talker.ask("open f0", "place f0 0 f0c1 0 0 N"), ["ok 0 0", "ok 1"])
        os.kill(self.hub.replay_pid(), signal.SIGKILL)
        self.assertEqual((talker.ask("where f0 0 f0c1"), self.hub.process.wait(PATIENCE)), ([""], 3))
        self.assertIn("change 2: the journal has b'ok 1\\n'", self.hub.log_text())
        # At a start, the same is refused.
        self.start()
        self.assertEqual(self.hub.process.wait(PATIENCE), 1)

    def test_a_signal_during_a_restart_ends_the_hub(self) -> None:
        self.start("--tail-bytes", "0")
        self.assertEqual(
            self.talk("f0").ask("open f0", "open f0", "place f0 0 f0c1 0 0 N"), ["ok 0 0", "ok 1 0", "ok 1"]
        )
        self.hub.kill()
        self.wrap("exec sleep 3600")
        for words, status in ((("--tail-bytes", "1"), 0), (("--roll",), 3)):
            (self.folder / "starts").unlink(missing_ok=True)
            hub = Hub(self.folder, self.words(*words))
            self.addCleanup(hub.kill)
            wait_until((self.folder / "starts").exists, hub.log_text)
            self.assertEqual((hub.end(), Archive(self.journal).numbers("state")), (status, []))
        self.program = PROGRAM
        # The sessions of the killed hub are known and get closed.
        self.start()
        self.assertEqual(
            self.talk("f0").ask("open f0", "close f0 1", "sync f0 0"), ["ok 0 1", "no 3 NoSession", "ok 1"]
        )
        # A session without an owner in the journal may be closed too.
        ClientPool(8, SYSTEM_CLOCK).note([b"close", b"f0", b"0"], b"ok\n", None)


if __name__ == "__main__":
    unittest.main()
