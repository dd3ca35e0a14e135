"""The client keeps up with docs/PROTOCOL.md: its commands, what each is refused as, and a sentence
for each refusal.
"""
import inspect
import re
import string
import unittest

from support import ROOT

from estserve_client.command_table import (
    BACK,
    IDENTIFIERS,
    KEYS,
    NAMES,
    NUMBERS,
    ON_SLOTS,
    WITHOUT_ENTRY,
)
from estserve_client.connection import Client, Refusal
from estserve_client.sentences import SENTENCES, out_of_form, sentence
from estserve_client.shell import Shell
from estserve_client.shell_words import PLAIN

TEXT = (ROOT / "docs" / "PROTOCOL.md").read_text()
EVERY = {"Memory", "NotARequest"}  # refusals of every command


def rows_of(heading):
    """The cells of each row of the first table after a line."""
    table = TEXT[TEXT.index(heading) :].partition("\n|---")[2].partition("\n\n")[0]
    return [[cell.strip() for cell in row.strip("|").split("|")] for row in table.split("\n")[1:]]


def words_of(cell):
    return re.findall(r"`(\w+)`", cell)


COMMANDS = {
    words_of(name)[0]: (words_of(keys), words_of(answer))
    for name, keys, _, answer in rows_of("## Commands")
}
REFUSALS = {int(code): (name, words_of(keys)) for code, name, keys, _ in rows_of("## Refusals")}
ORDERS = {
    name: {int(code) for code in re.findall(r"\b\d+\b", order)}
    for names, order in rows_of("The order in which refusals are tried")[1:]
    for name in words_of(names)
}


ALL_KEYS = {key for keys, _ in COMMANDS.values() for key in keys}


def refused_as(name):
    """What the docstring of a command's method says that it is refused as."""
    told = inspect.getdoc(getattr(Client, name)).partition("Refused as ")[2]
    return {word for word in re.findall(r"[A-Z]\w+", told)}


class Commands(unittest.TestCase):
    def test_each_command_is_a_method_with_its_keys(self):
        self.assertEqual(len(COMMANDS), 24)
        for name, (keys, _) in COMMANDS.items():
            with self.subTest(name):
                parameters = list(inspect.signature(getattr(Client, name)).parameters)
                self.assertEqual(sorted(parameters[1:]), sorted(keys))

    def test_each_docstring_names_the_keys_of_the_answer(self):
        for name, (_, answer) in COMMANDS.items():
            with self.subTest(name):
                told = (
                    inspect.getdoc(getattr(Client, name))
                    .partition("Gives ")[2]
                    .partition("Refused as")[0]
                )
                self.assertEqual(sorted(words_of(told)), sorted(answer))

    def test_each_docstring_names_the_refusals(self):
        self.assertEqual(sorted(ORDERS), sorted(COMMANDS))
        for name, codes in ORDERS.items():
            with self.subTest(name):
                wanted = {REFUSALS[code][0] for code in codes} - EVERY
                self.assertEqual(refused_as(name) | {"NoSession"}, wanted | {"NoSession"})

    def test_each_command_is_one_of_the_shell(self):
        for name in COMMANDS:
            self.assertTrue(name in PLAIN or hasattr(Shell, f"do_{name}"), name)
        self.assertLessEqual(set(PLAIN), set(COMMANDS))

    def test_the_one_table_has_the_keys_of_each_command(self):
        self.assertEqual(
            {name: sorted(keys) for name, keys in KEYS.items()},
            {name: sorted(keys) for name, (keys, _) in COMMANDS.items()},
        )
        answers = {name for name, (_, answer) in COMMANDS.items() if "place" in answer}
        self.assertEqual(answers, ON_SLOTS - WITHOUT_ENTRY)
        self.assertEqual(set(NAMES + IDENTIFIERS + NUMBERS) | {"op", "object", "text"}, ALL_KEYS)
        for name, back in BACK.items():
            self.assertLessEqual(set(KEYS[back]), set(KEYS[name]))


class Sentences(unittest.TestCase):
    def test_each_refusal_has_a_sentence(self):
        names = {name for name, _ in REFUSALS.values()}
        self.assertEqual(names, set(SENTENCES))
        self.assertEqual(len(REFUSALS), len(names))

    def test_each_sentence_says_no_more_than_the_keys(self):
        for name, keys in REFUSALS.values():
            with self.subTest(name):
                fields = {
                    field for _, field, _, _ in string.Formatter().parse(SENTENCES[name]) if field
                }
                self.assertLessEqual(fields - {"offered"}, set(keys))

    def test_an_exclusion_names_the_input_that_was_offered(self):
        refusal = Refusal(
            {"code": 40, "fault": "Excluded", "relation": 2, "signal": "B"},
            {"cmd": "offer", "signal": "A"},
        )
        self.assertEqual(sentence(refusal), "Excluded: relation 2 excludes A, since B is pending")
        told = "Excluded: relation 2 (A # B) excludes A, since B is pending"
        self.assertEqual(sentence(refusal, ["A => C", "A # B"]), told)

    def test_a_refusal_of_the_gateway_is_told(self):
        refusal = Refusal({"code": 1001, "fault": "NotYou", "user": "ann"})
        self.assertEqual(sentence(refusal), "NotYou: your Unix user may not log in as ann")
        refusal = Refusal({"code": 1003, "fault": "UnknownPerson", "uid": 7})
        self.assertIn("the number 7", sentence(refusal))

    def test_a_look_at_no_instant_says_what_is_the_first(self):
        told = [
            sentence(
                Refusal({"code": 51, "fault": "NoInstant"}, {"cmd": "look", "instant": number})
            )
            for number in (0, 9)
        ]
        self.assertEqual(told[0], "NoInstant: the first instant is 1: look [SLOT] INSTANT")
        self.assertEqual(told[1], "NoInstant: there was no such instant since the load")

    def test_a_word_out_of_form_is_told(self):
        wrong = {
            "user": "a.b",
            "role": "",
            "senior": "x" * 25,
            "signal": "1A",
            "main": "é",
            "op": "fly",
            "object": "16",
            "slot": 2**64,
            "roles": ["a", "b c"],
        }
        for key, word in wrong.items():
            with self.subTest(key):
                told = out_of_form({"cmd": "x", key: word})
                self.assertIn(str(word[1] if key == "roles" else word), told)
        self.assertEqual(out_of_form({"roles": ["r"] * 33}), "a command has at most 32 roles")
        right = {
            "user": "a_-9",
            "signal": "A_1",
            "op": "audit",
            "object": "15.A",
            "slot": 99,
            "roles": [],
            "count": 1,
        }
        self.assertIsNone(out_of_form(right))

    def test_a_refusal_without_its_keys_is_told_plainly(self):
        self.assertEqual(sentence(Refusal({"code": 10, "fault": "Permission"})), "Permission")
        self.assertEqual(sentence(Refusal({"code": 99, "fault": "New", "x": 1})), "New: x 1")


if __name__ == "__main__":
    unittest.main()
