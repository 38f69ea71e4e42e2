"""`python3 -m weblocks with`, as a user of the shell meets it."""

import os
import pty
import signal
import subprocess
import sys
import time
import unittest
from pathlib import Path

import weblocks
import weblocks.sync
from commands import (
    CommandLineCase,
    adopt_orphans,
    closing,
    ignore_ends,
    ignore_hangups,
    read_all,
    runs,
    take_terminal,
)
from support import SECONDS, Daemon, free_port, proxied


class With(CommandLineCase):
    def test_it_runs_the_command_while_the_lock_is_held_and_ends_with_its_status(self):
        process = self.hold("echo $$ > $1; read line; exit 7", stdin=subprocess.PIPE)
        with self.connect() as locks:
            self.assertEqual([("db", "exclusive")], [(info.name, info.mode) for info in locks.query().held])
            process.communicate("go\n", timeout=SECONDS)
            self.assertEqual(7, process.returncode)
            self.wait_for(lambda: locks.query().held == [])

    def test_the_server_is_named_by_WEBLOCKS_URL_unless_the_words_name_one(self):
        nowhere = f"ws://127.0.0.1:{free_port()}"
        with self.connect() as locks, locks.request("db"):
            for words, url in (((), self.daemon.url), (("--url", self.daemon.url), nowhere)):
                environment = {"WEBLOCKS_URL": url, "WEBLOCKS_ORIGIN": self.origin}
                ended = self.run_whole("with", "db", "--wait", "0", *words, "--", "echo", environment=environment)
                self.assertEqual((75, "", "weblocks: the lock 'db' is not free\n"), ended)
        environment = {"WEBLOCKS_URL": nowhere, "WEBLOCKS_ORIGIN": self.origin}
        status, out, err = self.run_whole("with", "db", "--", "echo", "ran", environment=environment)
        self.assertEqual((69, ""), (status, out))
        self.assertIn(nowhere, err)

    def test_an_empty_variable_counts_as_none(self):
        empty = {"WEBLOCKS_URL": "", "WEBLOCKS_BUCKET": "", "WEBLOCKS_TOKEN": ""}
        here = f"import weblocks.__main__ as line\nline.DEFAULT_URL = {self.daemon.url!r}"
        with self.connect() as locks, locks.request("db"):
            environment = {**empty, "WEBLOCKS_ORIGIN": self.origin}
            ended = self.run_whole("with", "db", "--wait", "0", "--", "echo", environment=environment, before=here)
            self.assertEqual((75, "", "weblocks: the lock 'db' is not free\n"), ended)
        environment = {**empty, "WEBLOCKS_ORIGIN": ""}
        status, out, err = self.run_whole("query", environment=environment, before=here)
        self.assertEqual((2, ""), (status, out))
        self.assertIn("name the origin by --origin or WEBLOCKS_ORIGIN", err)

    def test_the_command_has_the_standard_streams(self):
        process = self.start("with", "db", "--", "sh", "-c", "cat; echo error >&2", stdin=subprocess.PIPE)
        self.assertEqual(("text", "error\n"), process.communicate("text", timeout=SECONDS))
        self.assertEqual(0, process.returncode)

    def test_the_command_has_the_descriptors_that_with_was_given_and_no_others(self):
        reading, writing = os.pipe()
        self.addCleanup(os.close, reading)
        with open(writing, "w") as text:
            text.write("hi")
        # What lists the folder has it open meanwhile.
        look = "here = '/proc/self/fd/'; print({n for n in os.listdir(here) if os.path.lexists(here + n)} - set('012'))"
        command = (sys.executable, "-c", f"import os; print(os.read({reading}, 9)); {look}")
        streams = {"stdin": subprocess.DEVNULL, "pass_fds": [reading]}
        ended = self.run_whole("with", "db", "--", *command, **streams)
        self.assertEqual((0, f"b'hi'\n{{'{reading}'}}\n", ""), ended)

    def test_words_after_the_first_two_hyphens_are_the_commands(self):
        status, out, _err = self.run_whole("with", "db", "--", "printf", "%s\n", "--wait", "--", "-x")
        self.assertEqual((0, "--wait\n--\n-x\n"), (status, out))

    def test_where_the_lock_was_not_had_in_time_the_status_is_75_and_nothing_runs_or_waits(self):
        with self.connect() as locks, locks.request("db"):
            for wait in ("0", "0.3"):
                status, out, err = self.run_whole("with", "db", "--wait", wait, "--", "echo", "ran")
                self.assertEqual((75, ""), (status, out))
                self.assertRegex(err, r"\Aweblocks: the lock 'db' .*\n\Z")
            self.assertEqual([], locks.query().pending)

    def test_it_waits_for_the_lock(self):
        with self.connect() as locks:
            with locks.request("db"):
                process = self.start("with", "db", "--wait", str(SECONDS), "--", "echo", "ran")
                self.wait_for(lambda: len(locks.query().pending) == 1)
            self.assertEqual("ran\n", process.communicate(timeout=SECONDS)[0])
            self.assertEqual(0, process.returncode)

    def test_shared_locks_are_held_beside_each_other(self):
        with self.connect() as locks, locks.request("db", mode="shared"):
            status, out, _err = self.run_whole("with", "db", "--shared", "--wait", "30", "--", "echo", "ran")
            self.assertEqual((0, "ran\n"), (status, out))

    def test_steal_takes_the_lock(self):
        with self.connect() as locks:
            with self.assertRaises(weblocks.LockStolen):
                with locks.request("db"):
                    self.assertEqual((0, "ran\n", ""), self.run_whole("with", "db", "--steal", "--", "echo", "ran"))

    def test_where_the_lock_is_lost_the_command_and_what_it_started_get_TERM(self):
        process = self.hold("sleep 300 & echo $! > child; echo $$ > $1; wait", cwd=self.folder)
        with self.connect() as locks, locks.request("db", steal=True):
            _out, err = process.communicate(timeout=SECONDS)
        self.assertEqual(128 + signal.SIGTERM, process.returncode)
        self.assertEqual("weblocks: the lock 'db' was stolen, while the command ran\n", err)
        child = int((self.folder / "child").read_text())
        self.wait_for(lambda: not runs(child))

    def test_a_command_that_does_not_end_by_TERM_gets_KILL_after_10_seconds(self):
        process = self.hold("trap '' TERM; echo $$ > $1; while :; do sleep 1; done")
        with self.connect() as locks, locks.request("db", steal=True):
            begun = time.monotonic()
            _out, err = process.communicate(timeout=SECONDS)
        self.assertGreater(time.monotonic() - begun, 9)
        self.assertEqual(128 + signal.SIGKILL, process.returncode)
        self.assertIn("weblocks: the command did not end in 10 seconds: killing it\n", err)

    def test_where_nobody_reads_standard_error_a_command_that_does_not_end_gets_KILL_all_the_same(self):
        soon = "import weblocks.command\nweblocks.command.KILL_SECONDS = 0.5"
        process = self.hold("trap '' TERM; echo $$ > $1; while :; do sleep 0.2; done", before=soon)
        command = int((self.folder / "runs").read_text())
        process.stderr.close()
        with self.connect() as locks, locks.request("db", steal=True):
            self.assertEqual(128 + signal.SIGKILL, process.wait(SECONDS))
        self.assertFalse(runs(command))

    def test_what_is_to_be_said_where_standard_error_is_closed_is_dropped(self):
        with self.connect() as locks, locks.request("db"):
            process = self.start("with", "db", "--wait", "0", "--", "echo", preexec_fn=closing(2), stderr=None)
            self.assertEqual(("", None), process.communicate(timeout=SECONDS))
            self.assertEqual(75, process.returncode)
        process = self.start("with", "--no-such-word", preexec_fn=closing(2), stderr=None)
        self.assertEqual(("", None), process.communicate(timeout=SECONDS))
        self.assertEqual(2, process.returncode)

    # A child that says in a file that it is as it is to be, and a command that starts it and ends by TERM at once.
    STUBBORN = "sh -c 'trap \"\" TERM; echo $$ > child; while :; do sleep 0.2; done'"
    STARTER = " > /dev/null 2>&1 & while ! test -s child; do sleep 0.05; done; echo $$ > $1; wait"

    def test_what_an_ended_command_started_gets_KILL_where_it_does_not_end_by_TERM(self):
        process = self.hold(self.STUBBORN + self.STARTER, cwd=self.folder)
        child = int((self.folder / "child").read_text())
        with self.connect() as locks, locks.request("db", steal=True):
            begun = time.monotonic()
            _out, err = process.communicate(timeout=SECONDS)
        self.assertGreater(time.monotonic() - begun, 9)
        self.wait_for(lambda: not runs(child))
        self.assertEqual(128 + signal.SIGTERM, process.returncode)
        said = "weblocks: what the command started did not end in 10 seconds: killing it\n"
        self.assertEqual(f"{said}weblocks: the lock 'db' was stolen, while the command ran\n", err)

    def test_where_with_adopts_what_a_command_left_it_does_not_take_ended_processes_for_running_ones(self):
        child = "sh -c 'echo $$ > child; exec sleep 300'"
        process = self.hold(child + self.STARTER, cwd=self.folder, preexec_fn=adopt_orphans)
        with self.connect() as locks, locks.request("db", steal=True):
            begun = time.monotonic()
            _out, err = process.communicate(timeout=SECONDS)
        self.assertLess(time.monotonic() - begun, 9)
        self.assertEqual("weblocks: the lock 'db' was stolen, while the command ran\n", err)

    def test_a_command_that_may_not_be_signalled_is_told_and_waited_for(self):
        refuse = "import os\ndef refuse(*_words): raise PermissionError(1, 'not permitted')\nos.killpg = refuse"
        for line, status in (("exit 3", 3), ("exit 0", 1)):
            with self.subTest(line):
                process = self.hold(f"echo $$ > $1; read line; {line}", before=refuse, stdin=subprocess.PIPE)
                said = "weblocks: the command may not be signalled, and runs on: it gets no SIG%s\n"
                process.send_signal(signal.SIGHUP)
                self.assertEqual(said % "HUP", process.stderr.readline())
                with self.connect() as locks, locks.request("db", steal=True):
                    self.assertEqual(said % "TERM", process.stderr.readline())
                    self.assertIsNone(process.poll())
                    _out, err = process.communicate("go\n", timeout=SECONDS)
                self.assertEqual("weblocks: the lock 'db' was stolen, while the command ran\n", err)
                self.assertEqual(status, process.returncode)

    def test_a_command_that_ends_well_though_the_lock_was_lost_gives_status_1(self):
        process = self.hold("trap 'exit 0' TERM; echo $$ > $1; sleep 300 & wait")
        with self.connect() as locks, locks.request("db", steal=True):
            process.communicate(timeout=SECONDS)
        self.assertEqual(1, process.returncode)

    def test_a_command_whose_lock_was_lost_before_it_was_begun_is_not_run(self):
        steal = """
import weblocks, weblocks.requests as requests
wait = requests.wait_for_lock
async def lose(request):
    lock = await wait(request)
    request.end(weblocks.LockStolen("the lock 'db' was stolen"))
    return lock
requests.wait_for_lock = lose
"""
        ended = self.run_whole("with", "db", "--", "echo", "ran", before=steal)
        self.assertEqual((1, "", "weblocks: the lock 'db' was stolen, before the command ran\n"), ended)

    def test_where_the_connection_is_lost_the_command_is_ended(self):
        with proxied(self.daemon.port) as proxy:
            process = self.hold("echo $$ > $1; sleep 300 & wait", url=proxy.url)
            proxy.refuses = True
            proxy.cut()
            _out, err = process.communicate(timeout=SECONDS)
        self.assertEqual(128 + signal.SIGTERM, process.returncode)
        self.assertIn("weblocks: the lock 'db' was lost: the connection was lost, while the command ran\n", err)

    def end_unreleased(self, proxy, status):
        """A `with` behind a proxy whose command has ended with that status, and whose release isn't answered."""
        process = self.hold(f"echo $$ > $1; read line; exit {status}", url=proxy.url, stdin=subprocess.PIPE)
        command = int((self.folder / "runs").read_text())
        proxy.swallows = True
        process.stdin.write("go\n")
        process.stdin.flush()
        # It is gone once `with` has taken note of its end.
        self.wait_for(lambda: not Path(f"/proc/{command}").exists())
        time.sleep(0.2)
        self.assertIsNone(process.poll())
        return process

    def test_a_signal_while_the_release_is_waited_for_ends_the_waiting(self):
        for number in (signal.SIGINT, signal.SIGTERM):
            with self.subTest(number.name), proxied(self.daemon.port) as proxy:
                process = self.end_unreleased(proxy, 0)
                begun = time.monotonic()
                process.send_signal(number)
                out, err = process.communicate(timeout=SECONDS)
                self.assertEqual((128 + number, "", ""), (process.returncode, out, err))
                # A heartbeat would end it after 10 seconds or more.
                self.assertLess(time.monotonic() - begun, 9)

    def test_where_the_connection_is_lost_once_the_command_has_ended_the_status_is_the_commands(self):
        for status in (0, 7):
            with self.subTest(status), proxied(self.daemon.port) as proxy:
                process = self.end_unreleased(proxy, status)
                proxy.refuses = True
                proxy.cut()
                _out, err = process.communicate(timeout=SECONDS)
                self.assertEqual(status, process.returncode)
                self.assertIn("weblocks: the lock 'db' was lost: the connection was lost, while it was released\n", err)

    def test_a_theft_that_is_told_with_the_release_alone_gives_status_1(self):
        process = self.hold("echo $$ > $1; read line", url=self.server.url, stdin=subprocess.PIPE)
        with weblocks.sync.connect(self.server.url, origin=self.origin) as locks, locks.request("db", steal=True):
            _out, err = process.communicate("go\n", timeout=SECONDS)
        self.assertEqual((1, "weblocks: the lock 'db' was stolen, before it was released\n"), (process.returncode, err))

    def test_signals_are_passed_on_to_the_command(self):
        for number in (signal.SIGHUP, signal.SIGINT, signal.SIGQUIT, signal.SIGTERM, signal.SIGUSR1, signal.SIGUSR2):
            with self.subTest(number.name):
                # What a shell starts with & ignores INT and QUIT, and would keep the output open.
                trap = f"trap 'echo {number.name}; exit 9' {number.name[3:]}"
                process = self.hold(f"{trap}; sleep 300 > /dev/null 2>&1 & echo $$ > $1; wait")
                process.send_signal(number)
                out, _err = process.communicate(timeout=SECONDS)
                self.assertEqual((9, f"{number.name}\n"), (process.returncode, out))

    def test_a_command_that_a_signal_ended_gives_128_and_its_number(self):
        status, _out, _err = self.run_whole("with", "db", "--", "sh", "-c", "kill -9 $$")
        self.assertEqual(128 + 9, status)

    def test_where_the_ends_of_children_are_ignored_the_status_is_the_commands_all_the_same(self):
        self.assertEqual((7, "", ""), self.run_whole("with", "db", "--", "sh", "-c", "exit 7", preexec_fn=ignore_ends))

    def test_a_signal_while_the_lock_is_waited_for_ends_the_waiting(self):
        with self.connect() as locks, locks.request("db"):
            for number in (signal.SIGINT, signal.SIGTERM, signal.SIGUSR1, signal.SIGUSR2):
                process = self.start("with", "db", "--", "echo", "ran")
                self.wait_for(lambda: len(locks.query().pending) == 1)
                process.send_signal(number)
                out, err = process.communicate(timeout=SECONDS)
                self.assertEqual((128 + number, "", ""), (process.returncode, out, err))
                self.wait_for(lambda: locks.query().pending == [])

    def test_each_further_signal_interrupts_what_the_first_did_not_end(self):
        # A library may swallow a cancellation, or wait for an end of its own.
        wait_on = """
import asyncio, contextlib
import weblocks.__main__ as line
async def wait(_given, _signals):
    for number in range(3):
        with contextlib.suppress(asyncio.CancelledError if number < 2 else ()):
            open(f"waits{number}", "w").close()
            await asyncio.sleep(1000)
line.run = wait
"""
        process = self.start("query", before=wait_on, cwd=self.folder)
        for times, number in enumerate((signal.SIGTERM, signal.SIGINT, signal.SIGINT)):
            self.wait_for((self.folder / f"waits{times}").exists)
            process.send_signal(number)
        _out, err = process.communicate(timeout=SECONDS)
        self.assertEqual((128 + signal.SIGTERM, ""), (process.returncode, err))

    def test_a_signal_that_is_ignored_when_it_starts_stays_so(self):
        script = "kill -HUP $$; echo ran"
        with self.connect() as locks:
            with locks.request("db"):
                process = self.start("with", "db", "--", "sh", "-c", script, preexec_fn=ignore_hangups)
                self.wait_for(lambda: len(locks.query().pending) == 1)
                process.send_signal(signal.SIGHUP)
            self.assertEqual(("ran\n", ""), process.communicate(timeout=SECONDS))
            self.assertEqual(0, process.returncode)

    def test_in_a_terminal_the_command_gets_a_keys_signal_once(self):
        leader, follower = pty.openpty()
        self.addCleanup(os.close, leader)
        script = f"trap 'echo got it' INT; echo $$ > {self.folder}/runs; sleep 1.5; sleep 0.5; exit 3"
        process = self.start(
            "with", "db", "--", "sh", "-c", script,
            stdin=follower, stdout=follower, stderr=follower, start_new_session=True,
            preexec_fn=lambda: take_terminal(follower),
        )
        os.close(follower)
        self.wait_for((self.folder / "runs").exists)
        time.sleep(0.2)
        os.write(leader, b"\x03")
        shown = read_all(leader)
        self.assertEqual(3, process.wait(SECONDS))
        self.assertEqual(1, shown.count(b"got it"), shown)

    def test_a_command_that_is_not_there_gives_127_and_one_that_cannot_be_run_126(self):
        file = self.folder / "file"
        file.write_text("no program\n")
        status, _out, err = self.run_whole("with", "db", "--", "no-such-command")
        self.assertEqual((127, "weblocks: no-such-command: there is no such command\n"), (status, err))
        status, _out, err = self.run_whole("with", "db", "--", str(file))
        self.assertEqual(126, status)
        self.assertRegex(err, r"\Aweblocks: .*/file: it can't be run: .*\n\Z")
        with self.connect() as locks:
            self.wait_for(lambda: locks.query().held == [])

    def test_a_lost_server_while_the_lock_is_waited_for_is_told_and_the_request_is_made_again(self):
        server = Daemon()
        self.addCleanup(server.kill)
        with weblocks.sync.connect(server.url, origin=self.origin) as locks:
            with self.assertLogs("weblocks"), self.assertRaises(weblocks.LockLost):
                with locks.request("db") as lock:
                    process = self.start("with", "db", "--", "echo", "ran", url=server.url)
                    self.wait_for(lambda: len(locks.query().pending) == 1)
                    server.kill()
                    self.wait_for(lambda: lock.lost is not None)
            server.start()
            out, err = process.communicate(timeout=SECONDS)
        self.assertEqual((0, "ran\n"), (process.returncode, out))
        self.assertEqual("weblocks: the connection was lost: trying again\nweblocks: connected again\n", err)


if __name__ == "__main__":
    unittest.main()
