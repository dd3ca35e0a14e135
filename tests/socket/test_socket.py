"""The life of connections at a socket, and what becomes of the server's file."""
import contextlib
import os
import pathlib
import socket
import sys
import tempfile
import unittest

from running import ROOT, Disconnected, Server, connect, report, run, wait_for

sys.path.insert(0, str(ROOT / "tests" / "journals"))
from replay import lines_of, replayed  # noqa: E402
from estserve_client.connection import Refusal  # noqa: E402

SOCKET_FAULT = (1, b"", b"estserve: socket fault\n")
LOGIN = b'{"cmd":"login","roles":["root"],"user":"root"}\n'
# what is said of words that are no order, and such words
NO_ORDERS = {
    "requires a subcommand but one was not provided": [""],
    "required arguments were not provided": ["serve", "serve --workers 2"],
    "a value is required for": ["serve --socket", "serve --socket a --workers"],
    "cannot be used multiple times": ["script --log --log", "script --report --report", "serve --socket a --socket b"],
    "unexpected value 'true' for '--log' found": ["script --log=true"],
    "unexpected argument": [
        "script --socket a",
        "serve --socket a --log",
        "script more",
        "--log script",
        "script --version",
    ],
    "unrecognized subcommand": ["srcipt"],
    "invalid value": [
        *(f"serve --socket a --workers {word}" for word in ("0", "17", "four", "18446744073709551617")),
        "serve --socket a --workers=-1",
        *(f"serve --socket a --connections {word}" for word in ("0", "65536")),
    ],
    "Serves standard input": ["script -h"],
    "Usage: ": ["--help", "help"],
}
# words after `serve`, in which {} stands for the path, and how many workers the server then has
ORDERS = [
    ("--socket {}", 4),
    ("--socket={}", 4),
    ("--workers 2 --socket {}", 2),
    ("--socket {} --workers 1", 1),
    ("--socket {} --workers 16", 16),
    ("--socket {} --workers 010", 10),
    ("--socket {} --connections 7", 4),
    ("--socket {} --connections 65535", 4),
    ("--connections=9 --workers=3 --socket={}", 3),
]


def raw(path):
    """A connection to the server at this path, for bytes."""
    connection = socket.socket(socket.AF_UNIX, socket.SOCK_STREAM)
    connection.connect(str(path))
    return connection


def answers_to(path, sent):
    """All that the server answers to these bytes, after which the client sends no more."""
    with raw(path) as connection:
        connection.sendall(sent)
        connection.shutdown(socket.SHUT_WR)
        with connection.makefile("rb") as reader:
            return reader.read()


class Connections(unittest.TestCase):
    def test_the_opening_script_has_its_answers(self):
        stored = ROOT / "crates" / "estserve"
        with Server("--workers", "1", "--connections", "1") as server:
            self.assertEqual(answers_to(server.path, (stored / "stdin").read_bytes()), (stored / "stdout").read_bytes())
            self.assertEqual(server.end(), (0, report(10, "slot 0: 4 entries, 1 loads, 3 instants"), b""))
            self.assertFalse(server.path.exists())

    def test_each_dialogue_has_its_answers_and_its_report(self):
        for folder in ("examples/scripts", "tests/dialogues"):
            for answers in sorted((ROOT / folder).glob("*.stdout")):
                self.one_dialogue(answers)

    def one_dialogue(self, answers):
        """Has a dialogue on a server of its own, and compares its answers and its report with those of the replay."""
        with self.subTest(answers.stem), Server("--workers", "1", "--connections", "1") as server:
            script = answers.with_suffix("").read_bytes()
            self.assertEqual(answers_to(server.path, script), answers.read_bytes())
            judged = replayed(lines_of(script.decode()), lines_of(answers.read_text()))
            self.assertEqual(server.end(), (0, judged.report().encode(), b""))

    def test_the_calls_of_two_clients_are_the_entries_of_its_journals(self):
        with Server("--workers", "2", "--connections", "1") as server, server.root() as root, server.client() as ann:
            for command, *words in [("adduser", "ann"), ("addrole", "driver"), ("assign", "ann", "driver")]:
                getattr(root, command)(*words)
            for op, what in [("load", "3"), ("step", "3"), ("offer", "3.A")]:
                root.grant("driver", op, what)
            root.grant("root", "step", "3")
            ann.login("ann", ["driver"])
            ann.load(3, "M", "module M: input A; halt end module")
            ann.offer(3, "A")
            self.assertEqual([root.step(3)["place"], ann.step(3)["place"], root.step(3)["place"]], [3, 4, 5])
            root.revoke("driver", "step", "3")
            with self.assertRaises(Refusal):
                ann.step(3)
            ann.unload(3)
            ann.close()
            root.close()
            self.assertEqual(server.end(), (0, report(16, "slot 3: 6 entries, 1 loads, 3 instants"), b""))

    def test_one_policy_and_one_table_for_all(self):
        with Server("--workers", "2") as server, server.root() as root, server.client() as ann:
            root.adduser("ann")
            root.addrole("driver")
            root.assign("ann", "driver")
            ann.login("ann", ["driver"])
            self.assertFalse(ann.check("load", "3")["allowed"])
            root.grant("driver", "load", "3")
            self.assertTrue(ann.check("load", "3")["allowed"])
            ann.load(3, "M", "module M: pause end module")
            root.grant("root", "step", "3")
            self.assertEqual(root.step(3)["place"], 2)

    def test_an_over_long_line_ends_its_connection_alone(self):
        with Server("--workers", "2") as server, server.root() as root:
            self.assertEqual(answers_to(server.path, b"x" * 65_537), b'{"code":1,"fault":"TooLong"}\n')
            self.assertFalse(root.check("load", "0")["allowed"])


class PeersThatGoAway(unittest.TestCase):
    """With one worker, whose next connection tells by its version what became of the one before."""

    def test_in_the_middle_of_a_line(self):
        with Server("--workers", "1") as server:
            with raw(server.path) as connection:
                connection.sendall(LOGIN + b'{"cmd":"st')
            with server.client() as client:
                self.assertEqual(client.login("root", ["root"]), {"ok": "login", "session": 2, "version": 7})

    def test_before_its_answers_are_read(self):
        with Server("--workers", "1") as server:
            for session in (1, 2, 3):
                with raw(server.path) as connection:
                    connection.sendall(LOGIN + b'{"cmd":"check","object":"0","op":"load"}\n' * 500)
            with server.client() as client:
                self.assertEqual(client.login("root", ["root"]), {"ok": "login", "session": 4, "version": 11})

    def test_while_others_are_served(self):
        with Server("--workers", "2") as server, server.root() as root:
            root.adduser("ann")
            root.grant("root", "audit", "policy")
            with server.client() as ann:
                version = ann.login("ann", [])["version"]
                self.assertEqual(root.audit(0)["version"], version)
            wait_for(lambda: root.audit(0)["version"] == version + 1)


class CountedConnections(unittest.TestCase):
    def test_whatever_became_of_each(self):
        with Server("--workers", "1", "--connections", "5") as server:
            raw(server.path).close()
            self.assertEqual(answers_to(server.path, b""), b"")
            self.assertEqual(answers_to(server.path, b"x" * 65_537), b'{"code":1,"fault":"TooLong"}\n')
            self.assertEqual(answers_to(server.path, b"\n"), b'{"code":2,"fault":"NotJson"}\n')
            self.assertIsNone(server.process.poll())
            self.assertEqual(answers_to(server.path, LOGIN), b'{"ok":"login","session":1,"version":5}\n')
            self.assertEqual(server.end(), (0, report(6), b""))
            with self.assertRaises(Disconnected):
                connect(server.path)

    def test_of_each_worker(self):
        with Server("--workers", "3", "--connections", "2") as server:
            for _ in range(2):
                held = [server.root() for _ in range(3)]
                self.assertEqual([client.check("load", "0")["allowed"] for client in held], [False] * 3)
                self.assertIsNone(server.process.poll())
                for client in held:
                    client.close()
            self.assertEqual(server.end(), (0, report(16), b""))


def full_pipe():
    """The two ends of a pipe that takes no more bytes, and how many it holds."""
    reading, writing = os.pipe()
    os.set_blocking(writing, False)
    held = 0
    with contextlib.suppress(BlockingIOError):
        while True:
            held += os.write(writing, bytes(4_096))
    os.set_blocking(writing, True)
    return reading, writing, held


class EndOfAServer(unittest.TestCase):
    def test_the_socket_goes_before_the_report(self):
        """The report waits, since nobody reads what stands before it."""
        reading, writing, held = full_pipe()
        with Server("--workers", "1", "--connections", "1", output=writing) as server:
            os.close(writing)
            root = server.root()
            with raw(server.path) as late:
                root.close()
                with contextlib.suppress(ConnectionResetError):
                    self.assertEqual(late.recv(1), b"")
            wait_for(lambda: not server.path.exists())
            self.assertRaises(OSError, raw, server.path)
            self.assertIsNone(server.process.poll())
            with open(reading, "rb") as told:
                self.assertEqual(told.read()[held:], report(6))
            self.assertEqual(server.end(), (0, None, b""))


class OrderedServer(Server):
    """A server that is called with these words after `serve`, in which {} stands for its path."""

    def order(self):
        return ["serve", *(word.format(self.path) for word in self._words)]


def threads_of(process):
    """How many threads a process has."""
    return len(os.listdir(f"/proc/{process}/task"))


class PathsAndWords(unittest.TestCase):
    def test_a_path_that_cannot_be_bound(self):
        with tempfile.TemporaryDirectory() as name:
            folder = pathlib.Path(name)
            (folder / "file").write_text("kept")
            (folder / "folder").mkdir()
            for path in (folder / "file", folder / "folder", folder / "none" / "socket", folder / ("x" * 120), ""):
                with self.subTest(path):
                    self.assertEqual(run("serve", "--socket", str(path)), SOCKET_FAULT)
            self.assertEqual((folder / "file").read_text(), "kept")

    def test_a_path_at_which_a_server_is(self):
        with Server("--workers", "1", "--connections", "1") as server:
            self.assertEqual(run("serve", "--socket", str(server.path)), SOCKET_FAULT)
            self.assertEqual(answers_to(server.path, LOGIN), b'{"ok":"login","session":1,"version":5}\n')
            self.assertEqual(server.end()[0], 0)

    def test_the_file_of_a_server_that_was_killed(self):
        with Server() as server:
            server.process.kill()
            server.process.wait()
            self.assertTrue(server.path.is_socket())
            self.assertEqual(run("serve", "--socket", str(server.path)), SOCKET_FAULT)
            server.path.unlink()
            with Server("--workers", "1", "--connections", "1", path=server.path) as other:
                other.root().close()
                self.assertEqual(other.end(), (0, report(6), b""))

    def test_a_file_that_is_not_its_own_any_more(self):
        with Server("--workers", "1", "--connections", "1") as server:
            client = server.root()
            server.path.unlink()
            with Server("--workers", "1", path=server.path) as other:
                client.close()
                self.assertEqual(server.end(), (0, report(6), b""))
                other.root().close()

    def test_version_and_help_are_told_on_standard_error(self):
        version = (ROOT / "VERSION").read_text()
        self.assertEqual(run("--version"), (2, b"", f"estserve {version}".encode()))
        status, printed, told = run("--help")
        self.assertEqual((status, printed), (2, b""))
        self.assertIn(b"protocol version 1\n", told)

    def test_words_that_are_no_order(self):
        for said, lines in NO_ORDERS.items():
            for line in lines:
                with self.subTest(line):
                    status, printed, told = run(*line.split())
                    self.assertEqual((status, printed), (2, b""))
                    self.assertIn(said, told.decode())

    def test_words_that_are_an_order(self):
        for line, workers in ORDERS:
            with self.subTest(line), OrderedServer(*line.split()) as server:
                wait_for(lambda: threads_of(server.process.pid) == 1 + workers)

    def test_a_path_may_have_a_blank(self):
        with tempfile.TemporaryDirectory() as name:
            path = pathlib.Path(name) / "a b"
            with Server("--connections", "1", path=path) as server:
                self.assertTrue(path.is_socket())
                self.assertIsNone(server.process.poll())

    def test_a_word_that_is_not_utf_8(self):
        for words in ([b"\xff"], ["script", b"--\xe9"], ["serve", "--socket", b"/nowhere/\xc3\x28"]):
            with self.subTest(words):
                self.assertEqual(run(*words), (2, b"", b"estserve: a word is not UTF-8\n"))


if __name__ == "__main__":
    unittest.main()
