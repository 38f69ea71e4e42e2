"""The package as a user gets it: a wheel, built and installed without network, the README's way and the examples."""

import os
import re
import shutil
import subprocess
import sys
import tempfile
import unittest
import zipfile
from datetime import UTC, datetime
from pathlib import Path
from typing import get_args

import weblocks
from support import PACKAGE, PROGRAM, SECONDS, TOP, BothServersCase, Daemon

README = PACKAGE / "README.md"
OFFLINE = {"PIP_NO_INDEX": "1", "PIP_DISABLE_PIP_VERSION_CHECK": "1", "PIP_NO_INPUT": "1"}
CLEAN = {name: value for name, value in os.environ.items() if not name.startswith(("PYTHON", "WEBLOCKS_"))}


def run(*words, **options):
    """Runs a program to its end; what it writes, or an error with all of it."""
    ended = subprocess.run(
        [str(word) for word in words], text=True, stdout=subprocess.PIPE, stderr=subprocess.STDOUT, **options
    )
    if ended.returncode:
        raise AssertionError(f"{words} ended with {ended.returncode}:\n{ended.stdout}")
    return ended.stdout


def blocks_of(file, language):
    """The code blocks of a document in a language."""
    return re.findall(rf"^```{language}\n(.*?)^```$", file.read_text(), re.M | re.S)


class Wheel(unittest.TestCase):
    """Everything happens in an empty folder, with an environment of its own."""

    @classmethod
    def setUpClass(cls):
        cls.folder = Path(cls.enterClassContext(tempfile.TemporaryDirectory()))
        shutil.copytree(PACKAGE, cls.folder / "source", ignore=shutil.ignore_patterns("__pycache__", "*.egg-info"))
        cls.environment = {**CLEAN, **OFFLINE}
        run(
            sys.executable, "-m", "pip", "wheel", "--no-deps", "--no-build-isolation", "-w", cls.folder / "wheels",
            cls.folder / "source", env=cls.environment, cwd=cls.folder,
        )  # fmt: skip
        # The library that the package stands on comes from the system.
        venv = cls.folder / "venv"
        run(sys.executable, "-m", "venv", "--system-site-packages", "--without-pip", venv, env=cls.environment)
        cls.python = venv / "bin" / "python3"
        [wheel] = (cls.folder / "wheels").iterdir()
        run(
            sys.executable, "-m", "pip", "--python", cls.python, "install", "--no-index", wheel,
            env=cls.environment, cwd=cls.folder,
        )  # fmt: skip
        cls.server = Daemon()
        cls.addClassCleanup(cls.server.kill)

    def run_python(self, *words):
        return run(self.python, *words, env=self.environment, cwd=self.folder)

    def test_the_package_of_the_wheel_is_the_one_that_is_installed(self):
        where = self.run_python("-c", "import weblocks; print(weblocks.__file__)")
        self.assertTrue(Path(where.strip()).is_relative_to(self.folder / "venv"), where)

    def test_the_wheel_has_the_mark_of_a_typed_package(self):
        look = "import importlib.resources as r; assert r.files('weblocks').joinpath('py.typed').is_file()"
        self.run_python("-c", look)

    def test_the_wheel_has_the_texts_of_the_licenses(self):
        [wheel] = (self.folder / "wheels").iterdir()
        with zipfile.ZipFile(wheel) as archive:
            for license in ("LICENSE-APACHE", "LICENSE-MIT"):
                [name] = [it for it in archive.namelist() if it.endswith(f"/{license}")]
                self.assertEqual((TOP / license).read_bytes(), archive.read(name))

    def test_the_first_program_of_the_README_has_at_most_ten_lines_and_runs(self):
        first = blocks_of(README, "python")[0]
        self.assertLessEqual(len(first.strip().splitlines()), 10)
        (self.folder / "first.py").write_text(first.replace("ws://127.0.0.1:8080", self.server.url))
        self.assertEqual("exclusive lock on db\n", self.run_python("first.py"))

    def test_the_other_programs_of_the_README_run(self):
        # (test_local runs those that have no server)
        blocks = [it for it in blocks_of(README, "python")[1:] if "weblocks.local" not in it]
        self.assertGreaterEqual(len(blocks), 2)
        for number, block in enumerate(blocks):
            with self.subTest(block):
                file = self.folder / f"other{number}.py"
                file.write_text(block.replace("ws://127.0.0.1:8080", self.server.url))
                self.run_python(file)

    def test_the_commands_of_the_README_print_what_it_says(self):
        bin = self.folder / "venv" / "bin"
        environment = {**self.environment, "PATH": f"{bin}:{CLEAN['PATH']}", "WEBLOCKS_URL": self.server.url}
        checked = 0
        for block in blocks_of(README, "console"):
            if "weblocks with" not in block:
                continue
            for part in re.split(r"^\$ ", block, flags=re.M)[1:]:
                command, _newline, expected = part.partition("\n")
                if command.startswith("export WEBLOCKS_URL"):
                    environment["WEBLOCKS_ORIGIN"] = re.search(r"WEBLOCKS_ORIGIN=(\S+)", command)[1]
                    continue
                with self.subTest(command):
                    ended = subprocess.run(
                        ["bash", "-c", command], text=True, stdout=subprocess.PIPE, stderr=subprocess.STDOUT,
                        env=environment, cwd=self.folder, timeout=SECONDS,
                    )  # fmt: skip
                    numbered = re.sub(r"client-\d+", "client-N", ended.stdout)
                    self.assertEqual(re.sub(r"client-\d+", "client-N", expected), numbered)
                    checked += 1
        self.assertGreaterEqual(checked, 3)

    def test_the_command_line_runs_from_the_wheel(self):
        self.assertIn("with | query | watch", self.run_python("-m", "weblocks", "--help"))


class Types(unittest.TestCase):
    def test_mypy_finds_nothing_in_its_strict_mode(self):
        mypy = shutil.which("mypy", path="/usr/bin")
        if mypy is None:
            self.skipTest("mypy isn't installed")
        with tempfile.TemporaryDirectory() as cache:
            run(mypy, "--strict", "--cache-dir", cache, PACKAGE / "src" / "weblocks", cwd=PACKAGE, env=CLEAN)

    def test_a_user_may_name_the_types_of_the_words(self):
        self.assertEqual(("exclusive", "shared"), get_args(weblocks.Mode))
        self.assertEqual(("window", "worker"), get_args(weblocks.Kind))
        self.assertLessEqual({"Mode", "Kind"}, set(weblocks.__all__))

    def test_a_user_learns_from_the_types_that_if_available_may_give_None(self):
        mypy = shutil.which("mypy", path="/usr/bin")
        if mypy is None:
            self.skipTest("mypy isn't installed")
        program = (
            "import weblocks\n"
            "async def work(locks: weblocks.LockManager) -> str:\n"
            "    async with locks.request('db') as lock:\n"
            "        print(lock.name)\n"
            "    async with locks.request('db', if_available=True) as maybe:\n"
            "        return maybe.name\n"
        )
        with tempfile.TemporaryDirectory() as folder:
            file = Path(folder, "program.py")
            file.write_text(program)
            ended = subprocess.run(
                [mypy, "--strict", "--cache-dir", folder, file], text=True, stdout=subprocess.PIPE,
                env={**CLEAN, "MYPYPATH": str(PACKAGE / "src")}, cwd=folder,
            )  # fmt: skip
        self.assertIn('program.py:6: error: Item "None" of "Optional[Lock]" has no attribute "name"', ended.stdout)
        self.assertIn("Found 1 error", ended.stdout)


class Examples(BothServersCase):
    def test_a_cron_job_on_two_machines_runs_once(self):
        folder = Path(self.enterContext(tempfile.TemporaryDirectory()))
        job = folder / "job"
        job.write_text(f"#!/bin/sh\nsleep 1\necho ran >> {folder}/runs\n")
        job.chmod(0o755)
        environment = {
            **CLEAN,
            "PATH": f"{Path(sys.executable).parent}:{CLEAN['PATH']}",
            "PYTHONPATH": str(PACKAGE / "src"),
            "WEBLOCKS_URL": self.daemon.url,
            "shared": str(folder),
            "job": str(job),
        }
        machines = [
            subprocess.Popen(
                [TOP / "examples/python/run_once"], env=environment, text=True, stdout=subprocess.PIPE,
                stderr=subprocess.STDOUT,
            )
            for _ in range(2)
        ]  # fmt: skip
        said = [machine.communicate(timeout=SECONDS)[0] for machine in machines]
        self.assertEqual(["", "the report of today is made\n"], sorted(said))
        self.assertEqual([0, 0], [machine.returncode for machine in machines])
        self.assertEqual("ran\n", (folder / "runs").read_text())
        self.assertTrue((folder / datetime.now(UTC).strftime("done-%Y-%m-%d")).exists())

    def test_the_test_harness_passes(self):
        environment = {**CLEAN, "PYTHONPATH": str(PACKAGE / "src"), "WEBLOCKS_PROGRAM": PROGRAM}
        said = run(sys.executable, TOP / "examples/python/test_harness.py", env=environment, timeout=SECONDS)
        self.assertIn("OK", said)


if __name__ == "__main__":
    unittest.main()
