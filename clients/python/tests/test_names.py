"""Names of locks that JSON texts can't carry, and those that no lock can have."""

import json
import unittest

from support import TOP, ServedCase
from weblocks.names import from_wire, to_wire

VECTORS = json.loads((TOP / "tests" / "clients.d" / "names.json").read_text())


def text_of(units: list[int]) -> str:
    """A text of these UTF-16 code units, each a character of its own."""
    return "".join(map(chr, units))


def units_of(text: str) -> list[int]:
    """The UTF-16 code units of a text."""
    data = text.encode("utf-16-le", "surrogatepass")
    return [int.from_bytes(data[at : at + 2], "little") for at in range(0, len(data), 2)]


class Names(unittest.TestCase):
    def test_each_name_of_the_vectors_goes_over_the_wire_as_they_say(self) -> None:
        self.assertGreaterEqual(len(VECTORS), 10)
        for vector in VECTORS:
            with self.subTest(vector):
                self.assertEqual(vector["wire"], to_wire(text_of(vector["name"])))

    def test_what_goes_over_the_wire_has_no_lone_surrogate(self) -> None:
        for vector in VECTORS:
            to_wire(text_of(vector["name"])).encode()

    def test_each_wire_text_of_the_vectors_is_shown_as_its_name(self) -> None:
        for vector in VECTORS:
            with self.subTest(vector):
                self.assertEqual(vector["name"], units_of(from_wire(vector["wire"])))

    def test_no_two_names_have_one_text(self) -> None:
        units = [0x64, 0x30, 0x38, 0xD800, 0xDC00, 0xFDD0]
        names = [[]]
        for _ in range(5):
            names = names + [[*name, unit] for name in names for unit in units if len(name) < 4]
        names_by_units = {tuple(name) for name in names}
        texts = {to_wire(text_of(list(name))) for name in names_by_units}
        self.assertEqual(len(names_by_units), len(texts))

    def test_a_text_that_is_no_escape_is_shown_as_it_is(self) -> None:
        for text in (
            "\ufdd0",
            "\ufdd0x",
            "\ufdd0d80",
            "\ufdd0D800",
            "\ufdd0e000",
            "\ufdd0d7ff",
            "\ufdd0d83d\ufdd0dd12",
            "\ufdd0\ufdd0\ufdd0",
        ):
            with self.subTest(ascii(text)):
                self.assertEqual(text, from_wire(text))


class NamesAtTheService(ServedCase):
    async def test_a_name_with_a_lone_surrogate_is_a_lock_and_query_shows_it(self) -> None:
        async with self.connect() as locks:
            for vector in VECTORS:
                name = text_of(vector["name"])
                if name.startswith("-"):
                    continue
                with self.subTest(ascii(name)):
                    async with locks.request(name) as lock:
                        self.assertEqual(name, lock.name)
                        held = (await locks.query()).held
                        self.assertEqual([vector["name"]], [units_of(info.name) for info in held])

    async def test_a_surrogate_pair_and_its_character_are_one_name(self) -> None:
        async with self.connect() as locks, locks.request("\ud83d\udd12"):
            async with locks.request("\U0001f512", if_available=True) as lock:
                self.assertIsNone(lock)

    async def test_a_name_has_at_most_1024_bytes_of_UTF_8(self) -> None:
        async with self.connect() as locks:
            async with locks.request("n" * 1024), locks.request("é" * 512):
                self.assertEqual(2, len((await locks.query()).held))
            for name in ("n" * 1025, "é" * 512 + "n", "\ud800" * 147):
                with self.subTest(len=len(name)), self.assertRaisesRegex(ValueError, "1024 bytes"):
                    locks.request(name)

    async def test_a_name_that_begins_with_a_hyphen_raises_ValueError(self) -> None:
        async with self.connect() as locks:
            with self.assertRaisesRegex(ValueError, "'-'"):
                locks.request("-")
            async with locks.request("a-"):
                pass

    async def test_a_name_that_is_no_text_raises_TypeError(self) -> None:
        async with self.connect() as locks:
            for name in (None, 5, b"db", ["db"]):
                with self.subTest(repr(name)), self.assertRaisesRegex(TypeError, "name of a lock is a str"):
                    locks.request(name)  # type: ignore[arg-type]


if __name__ == "__main__":
    unittest.main()
