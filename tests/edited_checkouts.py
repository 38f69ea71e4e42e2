"""A copy of the checkout with a crate or two whose edits are tried, and commands that stand for rt and the prover."""

import os
from pathlib import Path

from build_checks import Kit
from checkouts import run_in
from running import Ended, Wrong, expect
from standins import put

# Its ci leaves libraries. By the variable RT_DOES:
#   doubt  the crates aren't proved as they stand
RT = r"""#!/usr/bin/env bash
case $1 in
doc) echo "${0%/*}/page" ;;
version) echo kit logic 0 ;;
ci)
    echo "ci: $(sed 's/:.*//' crates.txt | xargs)" >>"$RT_NOTES/checks"
    [[ ${RT_DOES-} != doubt ]] || { echo 'rt: low NOT PROVED'; exit 1; }
    for crate in crates/*; do
        mkdir -p "$crate/out/rlib/${crate##*/}.rlib"
        touch "$crate/out/rlib/${crate##*/}.rlib/format"
    done
    ;;
esac
"""

# Each function tells its name. Of those that it is asked for, or of all, it refuses one that tells another word, at a
# goal by that word: but an `equal` one is proved, a `broken` one can't be read, one is `named` by a proof file alone,
# and of one that leans on a function which isn't proved it tells no goal. It notes which words each check met, and
# where no body was put aside. By the variable RT_DOES:
#   hang  a check of the crate `low` that is asked for functions doesn't end
RATTLE = r"""#!/usr/bin/env python3
import os, pathlib, re, sys, time
words = sys.argv[1:]
crate = words[words.index("--crate-name") + 1]
asked = [it for before, it in zip(words, words[1:]) if before == "--only"]
text = pathlib.Path("src/lib.rt").read_text()
found = re.findall(r'fn (\w+)\(\) \{\n *tell\("(?:(\w+) )?(\w+)"\);(?: // leans on (\w+))?', text)
with pathlib.Path(os.environ["RT_NOTES"], "checks").open("a") as it:
    whole = "" if "unreachable!()" in text else ", in the whole"
    it.write(f"{crate}: {', '.join(f'{word} {name}' for name, word, _, _ in found if word)}{whole}\n")
if os.environ.get("RT_DOES") == "hang" and crate == "low":
    time.sleep(1000)
if any(word == "broken" for _, word, _, _ in found):
    print("src/lib.rt:2:5: error: expected the end")
    sys.exit(1)
open_ones = [name for name, word, _, _ in found if word not in ("", "equal")]
for name, word, _, leans in found:
    at = text[: text.index(f"fn {name}()")].count("\n") + 1
    if asked and name not in asked:
        continue
    if word == "named":
        print(f"./proofs/{name}/Answers.antt:1:1: error: `returns`: `it` is not in scope")
    elif name in open_ones and leans not in open_ones:
        print(f"note: src/lib.rt:{at}:1: it is not proved that `{word}` holds")
    calls = f"; it calls `{crate}::{leans}`, which is not proved" if leans in open_ones else ""
    print(f"fn {crate}::{name}: {'not proved' if name in open_ones or calls else 'proved'}{calls}")
end = f"only={len(asked)} proved={len(asked)}" if asked else f"logic={'not-' * bool(open_ones)}proved"
print(end)
sys.exit(bool(open_ones))
"""

NAMES = ("one", "two", "three", "four", "five")
LINES = {"one": 2, "two": 6, "three": 10, "four": 14, "five": 18}


def code() -> str:
    """Five functions: the third calls the first, and the fifth leans on it in a way that its words don't show."""
    more = {"three": " one();", "five": " // leans on one"}
    return "\n".join(f'\npub fn {it}() {{\n    tell("{it}");{more.get(it, "")}\n}}' for it in NAMES) + "\n"


def reason(name: str, word: str = "wrong") -> str:
    return f"note: src/lib.rt:{LINES[name]}:1: it is not proved that `{word}` holds"


def turned(*names: str, word: str = "wrong") -> str:
    """The text of an edit by which these functions tell another word."""
    pairs = (f'old: tell("{it}")\nnew: tell("{word} {it}")\n' for it in names)
    return "file: src/lib.rt\n" + "".join(pairs)


class Edited:
    """A copy of the checkout with crates of five functions, each crate on those before it, and with their edits."""

    def __init__(self, top: Path, kit: Kit, crates: tuple[str, ...] = ("low",)) -> None:
        self.top, self.kit = top, kit
        (top / "crates.txt").write_text("".join(f"{it}: {' '.join(crates[:at])}\n" for at, it in enumerate(crates)))
        for crate in crates:
            put(top / "crates" / crate / "src/lib.rt", code())
        (kit.notes / "checks").write_text("")
        put(top / "kit/rt", RT)
        put(top / "kit/bin/rattle", RATTLE)

    def around(self, **more: str) -> dict[str, str]:
        return self.kit.around(PATH=f"{self.top / 'kit'}:{os.environ['PATH']}", **more)

    def run(self, *words: str, **more: str) -> Ended:
        ended = run_in(self.top, [words[0], "--jobs", "1", *words[1:]], env=self.around(**more))
        expect("what is left of temporary files", [*self.kit.temporary.iterdir()], [])
        return ended

    def checks(self) -> list[str]:
        return (self.kit.notes / "checks").read_text().splitlines()

    def ends(self, words: list[str], passed: int, failed: int, checks: list[str], says: str, **more: str) -> None:
        """Runs it, and sees how many edits pass, by which checks, and that it says this."""
        ended = self.run(*words, **more)
        said = ended.out.decode() + ended.err.decode()
        expect("the last line", said.splitlines()[-1], f"{passed} passed, {failed} failed")
        expect("the status", ended.status, 1 if failed else 0)
        expect("the checks", self.checks(), checks)
        if says not in said:
            raise Wrong(f"it doesn't say '{says}' but\n{said}")
