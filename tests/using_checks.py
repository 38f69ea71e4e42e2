"""tests/using, on documents that it must pass and on others that it mustn't."""

from collections.abc import Callable, Iterator

from build_checks import Kit
from checkouts import TOP, Checkouts, run_in
from running import Wrong, expect

Checks = Iterator[tuple[str, Callable[[], None]]]

LOCK = (TOP / "examples/using/lock.mjs").read_text()
TALKS = "From `makes` and `ends` in `examples/pages/talks.mjs`:"
PRINTED = (TOP / "crates/weblocks/stdout").read_text()
TWO = "export function other() {}\n\nfn makes() {\n    1\n}\n\nfn ends() {\n    2\n}\n"


def document(said: str, kind: str, code: str) -> str:
    return f"{said}\n\n```{kind}\n{code}```\n"


def using_checks(made: Checkouts, _kit: Kit) -> Checks:
    def ends(text: str, status: int, said: str) -> None:
        top = made.fresh()
        (top / "document.md").write_text(text)
        (top / "examples/pages/talks.mjs").write_text(TWO)
        ended = run_in(top, ["tests/using", "--document", "document.md"], seconds=60)
        expect("the status", ended.status, status)
        if said not in ended.out.decode():
            raise Wrong(f"it doesn't say '{said}' but\n{ended.out.decode()}{ended.err.decode()}")

    def refuses(text: str, why: str) -> None:
        ends(text, 1, why)

    whole, some = "Of `examples/using/lock.mjs`:", "fn makes() {\n    1\n}\n"
    prints = "It prints `crates/weblocks/stdout`:"
    yield "a file as it stands", lambda: ends(document(whole, "js", LOCK), 0, "passed, 0 failed")
    yield "two functions as they stand", lambda: ends(document(TALKS, "js", TWO[TWO.index("fn") :]), 0, " 0 failed")
    yield "what a program prints", lambda: ends(document(prints, "text", PRINTED), 0, "passed, 0 failed")
    for fault, text, why in (
        ("another text", document(whole, "js", LOCK.replace("printer", "plotter")), "it is not all of"),
        ("a part of a file", document(whole, "js", LOCK.partition("\n")[0] + "\n"), "it is not all of"),
        ("another function's text", document(TALKS, "js", some), "it has nothing of fn ends of"),
        ("a changed function", document(TALKS, "js", some.replace("1", "3")), "it doesn't stand in"),
        ("another print", document(prints, "text", PRINTED.replace("granted", "given")), "it doesn't stand in"),
        ("no file", document("Like this:", "js", some), "the line above it doesn't end with the file"),
        ("a file that isn't there", document("Of `examples/none.mjs`:", "js", some), "there is no examples/none.mjs"),
        ("a block without an end", "```js\n1\n", "line 1, js: the block doesn't end"),
        ("the gate in a block", "```console\n$ ./test\n```\n", "./test can't be run here"),
    ):
        yield f"refused: {fault}", lambda it=text, why=why: refuses(it, why)
