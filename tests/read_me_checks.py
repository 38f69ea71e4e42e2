"""tests/read_me, on documents that it must pass and on others that it mustn't."""

import os
from collections.abc import Callable, Iterator

from build_checks import Kit
from checkouts import SHIPPED, Checkouts, run_in
from running import Wrong, expect

Checks = Iterator[tuple[str, Callable[[], None]]]

GOOD = """\
Text with `./test` in a sentence.

```console
$ ./weblocks run < examples/first.jsonl | head -n 1
{"id":1,"notices":[],"ok":{"client":"client-1"}}
$ cat <<'END' | cut -c 16-
$ in a heredoc is no command
END
is no command
$ name=kept
```

```python
print(1)
```

```console
$ (echo listening; sleep 0.2; echo served) &
listening
$ echo $name
kept
$ wait
served
```
"""


def block(*lines: str) -> str:
    return "\n".join(["```console", *lines, "```", ""])


def read_me_checks(made: Checkouts, kit: Kit) -> Checks:
    def tells(document: str, status: int, *said: str, runs: bool = True) -> None:
        top = made.fresh()
        (top / "document.md").write_text(document)
        words = ["tests/read_me", "--document", "document.md", *([SHIPPED] if runs else [])]
        ended = run_in(top, words, env=kit.around(PATH=f"{kit.path[0]}:{os.environ['PATH']}"), seconds=60)
        expect("the status", ended.status, status)
        for it in said:
            if it not in ended.out.decode():
                raise Wrong(f"it doesn't say '{it}' but\n{ended.out.decode()}")

    def refuses(document: str, why: str) -> None:
        tells(document, 1, why, runs=False)

    yield "the truth", lambda: tells(GOOD, 0, "not run: line 13, python\n", "\n14 passed, 0 failed\n")
    yield "its form alone", lambda: tells(GOOD, 0, "\n2 passed, 0 failed\n", runs=False)
    for shown, words, why in (
        ("another output", ["$ echo one", "two"], "without the kit: echo one: it prints\none\nand not\ntwo\n"),
        ("an output that isn't shown", ["$ echo one"], "with the kit: echo one: it prints\none\n"),
        ("a command that fails", ["$ false"], "without the kit: false: it ends with status 1"),
        ("a command that ends bash", ["$ exit 3"], "without the kit: exit 3: bash ended with it"),
    ):
        yield shown, lambda it=words, why=why: tells(block(*it), 1, f"FAILED line 2, {why}")
    for before, gate in (("", "./test"), ("", "./build"), ("cd .. && ", "./test"), ("", "rt ci")):
        why = f"line 2: {gate} can't be run here, which would run within itself or prove for minutes"
        yield f"the command {before}{gate}", lambda it=f"$ {before}{gate}", why=why: refuses(block(it), why)
    for fault, document, why in (
        ("no block to run", "```js\n1\n```\n", "document.md has no block ```console"),
        ("a block without an end", "```console\n$ true\n", "line 1, console: the block doesn't end"),
        ("a block without a command", block("one"), "line 2: the block doesn't begin with a command"),
        ("an input without an end", block("$ cat <<END"), "line 2: the lines of its input don't end with END"),
    ):
        yield fault, lambda it=document, why=why: refuses(it, why)
