"""The language server: a scripted exchange, in which the real program tells the faults; names, places
and renamings by themselves; and the extension for VS Code, where there is a Node to run it.
"""
import io
import json
import os
import pathlib
import queue
import random
import shutil
import subprocess
import sys
import tempfile
import threading
import unittest

from support import CLIENTS, EXAMPLES, ROOT, InAFolder, needs_program
from test_format import texts_of_the_repository

import estserve
from estserve_client.editor.checking import Checker, mains_of
from estserve_client.editor.documents import Documents, place_of, position_of, whole_of
from estserve_client.editor.names import Names
from estserve_client.editor.renaming import edits_of
from estserve_client.editor.server import EditorServer
from estserve_client.editor.wire import Refused, read_message, write_message
from estserve_client.module_text import main_of
from estserve_client.scenarios import grants_of
from estserve_client.syntax_tree import parse

SECONDS = 60  # whatever is waited for comes in this time
COMMAND = [sys.executable, "-B", str(CLIENTS / "estserve.py"), "lsp"]
RELAY = """module RELAY:
input GO;
output LAMP;
every GO do emit LAMP end
end module

module HOUSE:
input GO, DAY;
output LAMP, BELL;
trap DONE in
  signal S in
    run RELAY [signal S/LAMP]
  ||
    run RELAY
  ||
    await DAY and not S; emit BELL; exit DONE
  end
end
end module
"""


def at(text, word, count=1):
    """The place of a word in a text, as an editor counts it; the count says which one."""
    place = -1
    for _ in range(count):
        place = text.index(word, place + 1)
    lines = text[:place].split("\n")
    return {"line": len(lines) - 1, "character": len(lines[-1].encode("utf-16-le")) // 2}


def edited(text, edits):
    """A text with edits as an editor makes them."""
    lines = [line.encode("utf-16-le") for line in text.split("\n")]

    def place(position):
        return sum(len(line) + 2 for line in lines[: position["line"]]) + 2 * position["character"]

    data = "\n".encode("utf-16-le").join(lines)
    for edit in sorted(edits, key=lambda edit: place(edit["range"]["start"]), reverse=True):
        begin, end = (place(edit["range"][side]) for side in ("start", "end"))
        data = data[:begin] + edit["newText"].encode("utf-16-le") + data[end:]
    return data.decode("utf-16-le")


class Editor:
    """Stands for an editor: it speaks with a server. Used with `with`."""

    def __init__(self, **variables):
        """`variables` are given to the server besides."""
        pipe = subprocess.PIPE
        self.child = subprocess.Popen(
            COMMAND, stdin=pipe, stdout=pipe, env={**os.environ, **variables}
        )
        self.count, self.noticed, self.messages = 0, [], queue.Queue()
        self.thread = threading.Thread(target=self.receive, daemon=True)
        self.thread.start()

    def receive(self):
        """Keeps what the server says, up to its end."""
        while message := read_message(self.child.stdout):
            self.messages.put(message)

    def next_message(self):
        return self.messages.get(timeout=SECONDS)

    def __enter__(self):
        self.ask("initialize", {})
        self.tell("initialized", {})
        return self

    def __exit__(self, *_):
        self.ask("shutdown", {})
        self.tell("exit", {})
        self.child.stdin.close()
        status = self.child.wait(SECONDS)
        self.thread.join(SECONDS)
        self.child.stdout.close()
        assert status == 0

    def tell(self, method, words):
        write_message(self.child.stdin, {"method": method, "params": words})

    def ask(self, method, words):
        """The result of a request, or the message of its error."""
        self.count += 1
        write_message(self.child.stdin, {"id": self.count, "method": method, "params": words})
        while True:
            message = self.next_message()
            if message.get("id") == self.count:
                return message["error"]["message"] if "error" in message else message["result"]
            self.noticed.append(message)

    def notice(self, method):
        """The words of the next notice of this method."""
        while True:
            for number, message in enumerate(self.noticed):
                if message.get("method") == method:
                    return self.noticed.pop(number)["params"]
            self.noticed.append(self.next_message())

    def open(self, path, text):
        """Opens a text, and gives the faults that are told of it."""
        is_uri = str(path).startswith("untitled:")
        self.uri, self.text = path if is_uri else pathlib.Path(path).as_uri(), text
        document = {"uri": self.uri, "languageId": "esterel", "version": 1, "text": text}
        self.tell("textDocument/didOpen", {"textDocument": document})
        return self.faults()

    def change(self, text):
        self.text = text
        document = {"uri": self.uri, "version": 2}
        words = {"textDocument": document, "contentChanges": [{"text": text}]}
        self.tell("textDocument/didChange", words)
        return self.faults()

    def faults(self):
        words = self.notice("textDocument/publishDiagnostics")
        assert words["uri"] == self.uri, words
        return words["diagnostics"]

    def about(self, what, word, count=1, offset=0, **more):
        """What a request about a place of the text is answered."""
        place = at(self.text, word, count)
        place["character"] += offset
        document = {"textDocument": {"uri": self.uri}, "position": place}
        return self.ask(f"textDocument/{what}", {**document, **more})


def program():
    return estserve.start(os.environ["ESTSERVE"], timeout=60)


@needs_program
class Exchange(InAFolder):
    def setUp(self):
        super().setUp()
        self.path = self.folder / "m.strl"

    def test_faults_as_one_types(self):
        good = RELAY.replace("% ", "")
        with Editor() as editor:
            (fault,) = editor.open(self.path, good.replace("every GO do", "every GO"))
            self.assertEqual(
                (fault["code"], fault["severity"], fault["range"]["start"]),
                ("Syntax", 1, {"line": 3, "character": 9}),
            )
            self.assertIn("`do` expected; the `every` of line 4 is open", fault["message"])
            self.assertEqual(editor.change(good), [])
            (fault,) = editor.change(good.replace("emit BELL", "emit BLEL"))
            self.assertEqual(fault["message"].split("\n")[1], "did you mean `BELL`?")
            start = at(editor.text, "BLEL")
            end = {**start, "character": start["character"] + 4}
            self.assertEqual(fault["range"], {"start": start, "end": end})
            (fault,) = editor.change(
                good.replace("every GO do emit LAMP end", "loop emit LAMP end")
            )
            self.assertEqual(fault["code"], "InstantLoop")
            steps = [one["message"] for one in fault["relatedInformation"]]
            self.assertEqual(steps, ["emit LAMP"])
            self.assertEqual(
                [one["message"] for one in editor.change("")], ["Syntax: `module` expected"]
            )

    def test_names(self):
        with Editor() as editor:
            self.assertEqual(editor.open(self.path, RELAY), [])
            told = editor.about("hover", "S/LAMP")["contents"]["value"]
            self.assertIn("`S`: local signal of `HOUSE`, declared in line 11", told)
            self.assertIn("emitted in line 12", told)
            self.assertIn("tested in line 16", told)
            told = editor.about("hover", "LAMP, BELL")["contents"]["value"]
            self.assertIn("`LAMP`: output of `HOUSE`, declared in line 9", told)
            self.assertIn("emitted in line 14", told)
            self.assertIsNone(editor.about("hover", "await"))
            for word, count, target in [
                ("RELAY", 2, at(RELAY, "RELAY")),
                ("LAMP]", 1, at(RELAY, "LAMP")),
                ("S;", 1, at(RELAY, "S in")),
                ("DONE", 2, at(RELAY, "DONE")),
                ("GO do", 1, at(RELAY, "GO")),
            ]:
                found = editor.about("definition", word, count)
                self.assertEqual(
                    (found["uri"], found["range"]["start"]), (editor.uri, target), word
                )
            found = editor.about("references", "S in", context={"includeDeclaration": False})
            self.assertEqual([one["range"]["start"]["line"] for one in found], [11, 15])
            house = editor.ask(
                "textDocument/documentSymbol", {"textDocument": {"uri": editor.uri}}
            )[1]
            names = [child["name"] for child in house["children"]]
            self.assertEqual(
                (house["name"], names), ("HOUSE", ["GO", "DAY", "LAMP", "BELL", "DONE", "S"])
            )

    def test_a_text_that_is_no_file_yet(self):
        with Editor() as editor:
            (fault,) = editor.open("untitled:Untitled-1", "module M: run N end module\n")
            self.assertEqual(fault["code"], "UnknownModule")
            editor.change("module M: output O; emit O end module\n")
            found = editor.about("definition", "O end")
            self.assertEqual(found["uri"], "untitled:Untitled-1")
            changes = editor.about("rename", "O end", newName="OUT")["changes"]
            self.assertEqual(list(changes), ["untitled:Untitled-1"])

    def test_words_that_can_stand_there(self):
        begun = RELAY[: RELAY.index("run RELAY\n")]
        with Editor() as editor:
            for typed, words in [
                ("run ", ["RELAY", "HOUSE"]),
                ("exit D", ["DONE"]),
                ("emit ", ["GO", "DAY", "LAMP", "BELL", "S", "tick"]),
                ("abort pause wh", ["when"]),
                ("signal ", []),
                ("loop pause ", ["each", "end"]),
            ]:
                editor.open(self.path, begun + typed + "?")
                told = [
                    one["label"]
                    for one in editor.about("completion", typed + "?", offset=len(typed))
                ]
                self.assertEqual([word for word in told if word != "not"], words, typed)

    def test_renamings(self):
        with Editor() as editor:
            editor.open(self.path, RELAY)
            for word, count, new, pairs in [
                (
                    "S in", 1, "HEARD",
                    [("signal S in", "signal HEARD in"), ("S/LAMP", "HEARD/LAMP"),
                     ("not S;", "not HEARD;")],
                ),
                ("DONE", 1, "OVER", [("trap DONE", "trap OVER"), ("exit DONE", "exit OVER")]),
                (
                    "LAMP", 1, "LIGHT",
                    [("output LAMP;\nevery", "output LIGHT;\nevery"),
                     ("emit LAMP", "emit LIGHT"), ("S/LAMP", "S/LIGHT"),
                     ("run RELAY\n  ||\n    await", "run RELAY [signal LAMP/LIGHT]\n  ||\n    await")],
                ),
                (
                    "GO, DAY", 1, "START",
                    [("input GO, DAY", "input START, DAY"), ("S/LAMP]", "S/LAMP, START/GO]"),
                     ("run RELAY\n  ||\n    await", "run RELAY [signal START/GO]\n  ||\n    await")],
                ),
                ("RELAY", 3, "WIRE", [("RELAY", "WIRE")]),
            ]:  # fmt: skip
                edits = editor.about("rename", word, count, newName=new)["changes"][editor.uri]
                wanted = RELAY
                for old, text in pairs:
                    wanted = wanted.replace(old, text)
                self.assertEqual(edited(RELAY, edits), wanted)
                self.assertEqual(editor.change(wanted), [])
                editor.change(RELAY)
            for new, told in [
                ("end", "a word of the language"),
                ("1A", "no name"),
                ("BELL", "there is a BELL already"),
            ]:
                self.assertIn(told, editor.about("rename", "S in", newName=new))
            self.assertIsNone(editor.about("prepareRename", "await"))

    def test_layout_and_what_is_no_request(self):
        with Editor() as editor:
            editor.open(self.path, RELAY.replace("  ", " "))
            words = {"textDocument": {"uri": editor.uri}, "options": {}}
            (edit,) = editor.ask("textDocument/formatting", words)
            self.assertEqual(edit["range"], whole_of(editor.text))
            self.assertEqual(edit["newText"], RELAY)
            editor.change("module M: emit end module")
            self.assertIn(
                "1:16: Syntax: a name expected", editor.ask("textDocument/formatting", words)
            )
            self.assertEqual(
                editor.ask("textDocument/fly", {}), "there is no method textDocument/fly"
            )
            self.assertIn("words are missing", editor.ask("textDocument/hover", {}))
            editor.tell("textDocument/didOpen", {})
            editor.tell("textDocument/didChange", {"textDocument": 1, "contentChanges": [1]})
            editor.child.stdin.write(b"Content-Length: 3\r\n\r\n{]}")
            self.assertIsNone(editor.about("hover", "module"))
            self.assertIn("this is no JSON", editor.noticed[-1]["error"]["message"])

    def test_files_beside(self):
        cell, main = self.folder / "cell.strl", self.folder / "main.strl"
        cell.write_text("module CELL: input I; output O;\nevery I do emit O end\nend module\n")
        text = "module MAIN: input A; output B;\nrun CELL [signal A/I, B/O]\nend module\n"
        main.write_text(text)
        with Editor() as editor:
            self.assertEqual(editor.open(main, text), [])
            found = editor.about("definition", "CELL")
            self.assertEqual((found["uri"], found["range"]["start"]["line"]), (cell.as_uri(), 0))
            changes = editor.about("rename", "I,", newName="IN")["changes"]
            self.assertEqual(sorted(changes), sorted([cell.as_uri(), main.as_uri()]))
            self.assertEqual(edited(text, changes[main.as_uri()]), text.replace("A/I", "A/IN"))
            cell.write_text(cell.read_text().replace("emit O", "emit"))
            self.assertEqual(editor.change(text + "\n"), [])
            words = editor.notice("textDocument/publishDiagnostics")
            self.assertEqual(
                (words["uri"], words["diagnostics"][0]["code"]), (cell.as_uri(), "Syntax")
            )

    def test_the_command_and_a_text_of_the_examples(self):
        path = EXAMPLES / "arbiter" / "arbiter.strl"
        with Editor() as editor:
            self.assertEqual(editor.open(path, path.read_text()), [])
            found = editor.about("references", "TOKEN", context={"includeDeclaration": True})
            self.assertEqual(len(found), 3 + 6)


class WithoutAProgram(unittest.TestCase):
    def test_faults_of_syntax_alone_are_told(self):
        with Editor(ESTSERVE="/nowhere/estserve") as editor:
            (fault,) = editor.open("/x/m.strl", "module M: emit end module")
            self.assertEqual(
                (fault["code"], fault["message"]), ("Syntax", "Syntax: a name expected")
            )
            told = editor.notice("window/showMessage")["message"]
            self.assertRegex(
                told, "^faults of syntax alone are told: /nowhere/estserve cannot be started"
            )
            self.assertEqual(editor.change("module M: emit A end module"), [])
            self.assertFalse(
                [one for one in editor.noticed if one.get("method") == "window/showMessage"]
            )


class AnyText(unittest.TestCase):
    """Whatever text is open and whatever place is asked about, each request is answered."""

    def test_each_request_is_answered(self):
        chance, answered = random.Random(3), 0
        texts = [text for text in texts_of_the_repository() if len(text) < 1_500]
        for number in range(300):
            text = chance.choice(texts)
            if number % 3 == 0:
                at = chance.randrange(len(text))
                text = text[:at] + chance.choice(["", "é", "𝄞 ", ";", "%{", "end"]) + text[at + 3 :]
            writer = io.BytesIO()
            server = EditorServer(io.BytesIO(), writer, Checker(program))
            server.keep("/x/m.strl", text)
            lines = text.split("\n")
            for method in server.requests:
                line = chance.randrange(len(lines) + 1)
                words = {
                    "textDocument": {"uri": "file:///x/m.strl"},
                    "position": {"line": line, "character": chance.randrange(40)},
                    "newName": "ANOTHER",
                }
                server.take({"id": 1, "method": method, "params": words})
            reader = io.BytesIO(writer.getvalue())
            answers = [read_message(reader) for _ in server.requests]
            told = [one["error"]["message"] for one in answers if "error" in one]
            for one in told:
                self.assertRegex(one, "laid out|no name|already|always present", text)
            answered += len(answers) - len(told)
        self.assertGreater(answered, 2_000)


class Places(unittest.TestCase):
    def test_an_editor_counts_units_and_estserve_bytes(self):
        lines = ["%{ é𝄞 }% emit A", ""]
        self.assertEqual(position_of(lines, 1, 14), {"line": 0, "character": 10})
        self.assertEqual(place_of(lines, {"line": 0, "character": 10}), (1, 14))
        self.assertEqual(place_of(lines, {"line": 5, "character": 9}), (6, 1))
        self.assertEqual(position_of(lines, 9, 9), {"line": 8, "character": 0})

    def test_a_library_is_what_a_file_needs(self):
        with tempfile.TemporaryDirectory() as name:
            folder = pathlib.Path(name)
            for module, runs in (("A", "run B"), ("B", "run C"), ("C", "pause"), ("D", "pause")):
                (folder / f"{module}.strl").write_text(f"module {module}: {runs} end module\n")
            (folder / "A2.strl").write_text(
                "module A: pause end module module C: pause end module\n"
            )
            documents, path = Documents(), str(folder / "A.strl")
            documents.open[path] = documents.text_of(path)
            library = documents.library_of(path)
            self.assertEqual([pathlib.Path(one).stem for one in library.paths], ["A", "B", "C"])
            self.assertEqual(mains_of(library), ["A"])


@needs_program
class Extension(unittest.TestCase):
    @unittest.skipUnless(shutil.which("node"), "node is not installed")
    def test_the_extension_hands_on_between_editor_and_server(self):
        with tempfile.TemporaryDirectory() as name:
            client = pathlib.Path(name) / "client"
            client.write_text(
                f'#!/bin/sh\nexec "{sys.executable}" -B "{CLIENTS / "estserve.py"}" "$@"\n'
            )
            client.chmod(0o755)
            text = EXAMPLES / "abro" / "abro.strl"
            stand_in = CLIENTS / "tests" / "vscode_stand_in.js"
            words = ["node", stand_in, ROOT / "editors" / "vscode" / "extension.js", client, text]
            ran = subprocess.run(words, capture_output=True, text=True, timeout=SECONDS)
        self.assertEqual((ran.returncode, ran.stderr), (0, ""))
        told = json.loads(ran.stdout)
        self.assertEqual(
            told["faults"], [[], ["Syntax: a statement expected\ndid you mean `emit`?"], []]
        )
        self.assertIn("`O`: output of `ABRO`", told["hover"])
        self.assertEqual((told["definition"]["startLine"], told["references"]), (3, 2))
        uri = text.as_uri()
        self.assertEqual(told["rename"], [[uri, 3, 7, "OUT"], [uri, 6, 7, "OUT"]])
        self.assertEqual(told["words"], ["A", "B", "R", "O", "tick"])
        self.assertEqual(told["refused"], "end is a word of the language, and no name")
        self.assertEqual((told["symbols"], told["format"], told["messages"]), (["ABRO"], [], []))


@needs_program
class Renamings(unittest.TestCase):
    """A new name for any name of any text of the repository: the program reads the text as before."""

    def test_what_was_loaded_is_loaded(self):
        chance, count = random.Random(11), 0
        with program() as client:
            client.login("root", ["root"])
            client.ask_all(grants_of(main_of("")))
            for text in texts_of_the_repository():
                main = main_of(text).name
                if len(text) > 3_000 or self.fault_of(client, text, main):
                    continue
                names = Names(parse(text))
                declared = sorted(
                    {use.declared for use in names.uses if use.how == "declared"}, key=str
                )
                for one in chance.sample(declared, min(2, len(declared))):
                    new = self.renamed(text, edits_of(names, one, "NEW_NAME"))
                    main = (
                        "NEW_NAME"
                        if (one.kind, one.name) == ("module", main_of(text).name)
                        else main_of(text).name
                    )
                    self.assertIsNone(self.fault_of(client, new, main), f"{one}\n{text}\n{new}")
                    again = Names(parse(new))
                    self.assertEqual(self.hows(names, one), self.hows(again, None), new)
                    count += 1
        self.assertGreater(count, 150)

    def fault_of(self, client, text, main):
        try:
            client.load(0, main, text)
        except estserve.Refusal as refusal:
            return refusal.fault
        client.unload(0)
        return None

    def renamed(self, text, edits):
        lines = text.encode().split(b"\n")
        for edit in reversed(edits):
            line, begin = lines[edit.line - 1], edit.column - 1
            lines[edit.line - 1] = line[:begin] + edit.text.encode() + line[begin + edit.width :]
        return b"\n".join(lines).decode()

    def hows(self, names, one):
        """What is done with what is declared, or with what is called NEW_NAME, but for what runs bind."""
        uses = [use for use in names.uses if use.how not in ("bound", "emitted")]
        return [
            use.how
            for use in uses
            if use.declared == one or (one is None and use.declared.name == "NEW_NAME")
        ]

    def test_a_name_that_could_be_taken_for_another_is_refused(self):
        text = "module M: input A; signal B in trap T in [emit B || await A; exit T] end end end module"
        names = Names(parse(text))
        by_name = {use.declared.name: use.declared for use in names.uses}
        for old, new in [("A", "B"), ("B", "A"), ("M", "M2"), ("T", "A")]:
            if (old, new) in (("M", "M2"), ("T", "A")):
                self.assertTrue(edits_of(names, by_name[old], new))
                continue
            with self.assertRaises(Refused):
                edits_of(names, by_name[old], new)


if __name__ == "__main__":
    unittest.main()
