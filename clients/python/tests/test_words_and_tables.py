"""The words of the command line, what it says where they can't be done, and the tables of `query` and `watch`."""

import os
import pty
import re
import signal
import subprocess
import unittest

import weblocks.sync
from commands import CommandLineCase, closing
from support import SECONDS, daemon_with_tokens, free_port


class Words(CommandLineCase):
    def test_the_service_is_named_by_words_or_by_the_environment(self):
        words = ("--url", self.daemon.url, "--origin", self.origin, "--bucket", "inbox")
        status, out, _err = self.run_whole("query", *words, environment={})
        self.assertEqual(0, status, out)
        environment = {"WEBLOCKS_URL": self.daemon.url, "WEBLOCKS_ORIGIN": self.origin, "WEBLOCKS_BUCKET": "inbox"}
        with weblocks.sync.connect(self.daemon.url, origin=self.origin, bucket="inbox") as locks:
            with locks.request("found"):
                for options in ((words, {}), ((), environment)):
                    _status, out, _err = self.run_whole("query", *options[0], environment=options[1])
                    self.assertIn("found", out)

    def test_the_token_comes_from_a_file_or_from_the_environment(self):
        server = daemon_with_tokens(self, "right")
        file = self.folder / "token"
        file.write_text("right\n")
        place = {"WEBLOCKS_URL": server.url, "WEBLOCKS_ORIGIN": self.origin}
        self.assertEqual(0, self.run_whole("query", "--token-file", str(file), environment=place)[0])
        self.assertEqual(0, self.run_whole("query", environment={**place, "WEBLOCKS_TOKEN": "right"})[0])
        status, _out, err = self.run_whole("query", environment={**place, "WEBLOCKS_TOKEN": "wrong"})
        self.assertEqual(77, status)
        self.assertEqual(f"weblocks: the server at {server.url} refused the token (HTTP status 401)\n", err)
        status, _out, err = self.run_whole("query", environment=place)
        self.assertEqual((77, f"weblocks: the server at {server.url} wants a token (HTTP status 401)\n"), (status, err))
        status, _out, err = self.run_whole("query", "--token-file", str(self.folder / "none"))
        self.assertEqual(2, status)
        self.assertIn("the token file can't be read", err)
        for text in ("", "right https://a.test\n", "right\nwrong\n"):
            file.write_text(text)
            status, _out, err = self.run_whole("query", "--token-file", str(file), environment=place)
            self.assertEqual(2, status)
            self.assertIn(f"the token file {file} is to have one token alone", err)

    def test_what_fails_is_told_in_one_line_and_without_a_traceback(self):
        nowhere = f"ws://127.0.0.1:{free_port()}"
        for status, text, words in (
            (69, f"no server answers at {nowhere}: Connection refused", ("query", "--url", nowhere)),
            (2, "'http://a.test' is no URL of a WebSocket server, such as .*", ("query", "--url", "http://a.test")),
            (77, "the origin 'a.test' is no URL, such as https://a.test", ("query", "--origin", "a.test")),
            (77, "'data:,' is of an opaque origin, which has no locks", ("query", "--origin", "data:,")),
            (77, "'-' can't be the name of a bucket: .*, the first a letter or a digit", ("query", "--bucket=-")),
            (2, "the name of a lock has at most 1024 bytes .*", ("with", "n" * 1025, "--", "true")),
        ):
            with self.subTest(text):
                ended = self.run_whole(*words)
                self.assertEqual(status, ended[0])
                self.assertRegex(ended[2], rf"\Aweblocks: {text}\n\Z")

    def test_words_that_cannot_be_understood_give_status_2_and_say_why(self):
        for text, words in (
            ("the following arguments are required: with | query | watch", ()),
            ("invalid choice: 'hold'", ("hold",)),
            ("name the command behind --", ("with", "db")),
            ("name the command behind --", ("with", "db", "--")),
            ("name the command behind --", ("with", "db", "echo", "-n")),
            ("unrecognized arguments: echo", ("with", "db", "echo", "--", "true")),
            ("unrecognized arguments: --exclusive", ("with", "db", "--exclusive")),
            ("unrecognized arguments: db", ("query", "db")),
            ("there is no --token, since", ("query", "--token", "secret")),
            ("there is no --token, since", ("with", "db", "--token=secret", "--", "true")),
            ("the following arguments are required: NAME", ("with", "--", "true")),
            ("--steal and --shared exclude each other", ("with", "db", "--steal", "--shared", "--", "true")),
            ("--steal and --wait exclude each other", ("with", "db", "--steal", "--wait", "5", "--", "true")),
            ("--steal and --wait exclude each other", ("with", "db", "--steal", "--wait", "0", "--", "true")),
            ("invalid seconds value: 'soon'", ("with", "db", "--wait", "soon", "--", "true")),
            ("invalid seconds value: '-1'", ("with", "db", "--wait=-1", "--", "true")),
            ("query runs no command", ("query", "--", "true")),
        ):
            with self.subTest(words):
                status, _out, err = self.run_whole(*words)
                self.assertEqual(2, status)
                self.assertIn(text, err)
                self.assertNotIn("secret", err)
        status, _out, err = self.run_whole("query", environment={})
        self.assertEqual(2, status)
        self.assertIn("name the origin by --origin or WEBLOCKS_ORIGIN", err)

    def test_help_tells_of_all_words_and_statuses(self):
        status, out, _err = self.run_whole("with", "--help")
        self.assertEqual(0, status)
        for word in (
            "--shared", "--wait", "--steal", "--fence", "--url", "--origin", "--bucket", "--token-file", "75", "127",
            "141",
        ):  # fmt: skip
            self.assertIn(word, out)


class Tables(CommandLineCase):
    def test_query_prints_a_table_of_what_is_held_and_waited_for(self):
        self.assertEqual((0, "no locks are held, and none are waited for\n", ""), self.run_whole("query"))
        with self.connect() as locks, locks.request("printer", mode="shared"), locks.request("db"):
            process = self.start("with", "db", "--", "true")
            self.wait_for(lambda: len(locks.query().pending) == 1)
            own, other = locks.client_id, locks.query().pending[0].client_id
            _status, out, _err = self.run_whole("query")
            self.assertEqual(
                f"NAME     STATE  MODE       CLIENT\n"
                f"db       held   exclusive  {own}\n"
                f"db       waits  exclusive  {other}\n"
                f"printer  held   shared     {own}\n"
                f"\n"
                f"2 held, 1 waiting\n",
                out,
            )
            process.kill()

    def test_names_that_would_spoil_the_table_are_shown_escaped_and_cut(self):
        with self.connect() as locks, locks.request("a\n\x1b[31m\ud800é"), locks.request(""), locks.request("n" * 100):
            _status, out, _err = self.run_whole("query")
        names = [line.split("  ")[0] for line in out.splitlines()[1:4]]
        self.assertEqual(['""', r"a\n\x1b[31m\ud800é", "n" * 59 + "…"], names)

    def test_query_ends_quietly_where_nobody_reads_on_and_by_the_status_of_a_broken_pipe(self):
        process = self.start("query", stdout=subprocess.PIPE)
        process.stdout.close()
        self.assertEqual("", process.stderr.read())
        process.stderr.close()
        self.assertEqual(128 + signal.SIGPIPE, process.wait(SECONDS))
        process.stdout = process.stderr = None

    def test_query_ends_well_where_standard_output_is_closed(self):
        process = self.start("query", preexec_fn=closing(1), stdout=None)
        self.assertEqual((None, ""), process.communicate(timeout=SECONDS))
        self.assertEqual(0, process.returncode)

    def test_watch_prints_the_table_each_time_that_it_changes(self):
        process = self.start("watch", "--every", "0.05")
        self.assertRegex(process.stdout.readline(), rf"\A{re.escape(self.origin)}  default  \d\d:\d\d:\d\d\n\Z")
        self.assertEqual("no locks are held, and none are waited for\n", process.stdout.readline())
        with self.connect() as locks, locks.request("db"):
            lines = [process.stdout.readline() for _ in range(4)]
            self.assertEqual(["NAME", "db"], [line.split()[0] for line in lines[2:]])
        process.send_signal(signal.SIGINT)
        _out, err = process.communicate(timeout=SECONDS)
        self.assertEqual((128 + signal.SIGINT, ""), (process.returncode, err))

    def test_watch_draws_anew_in_a_terminal(self):
        leader, follower = pty.openpty()
        self.addCleanup(os.close, leader)
        process = self.start("watch", stdout=follower)
        os.close(follower)
        shown = os.read(leader, 4096)
        while b"waited for" not in shown:
            shown += os.read(leader, 4096)
        self.assertTrue(shown.startswith(b"\x1b[H\x1b[2J" + self.origin.encode()), shown)
        process.send_signal(signal.SIGTERM)
        self.assertEqual(128 + signal.SIGTERM, process.wait(SECONDS))


if __name__ == "__main__":
    unittest.main()
