"""What the client says of what goes wrong: one clear line, and a status that isn't 0."""
import argparse
import contextlib
import errno
import io
import json
import os
import pathlib
import signal
import socket
import subprocess
import sys
import tempfile
import threading
import unittest
import unittest.mock

from support import CLIENTS, DIALOGUES, EXAMPLES, InAFolder, play_dialogue, run_client, run_words

import estserve
from estserve_client import connection, session
from estserve_client.applying import ALONE
from estserve_client.texts import Failed

LOGIN = '{"ok":"login","session":1,"version":5}'
COMMAND = [sys.executable, "-B", str(CLIENTS / "estserve.py")]


class WhatGoesWrong(InAFolder):
    def program(self, script):
        """A program that is this script of the shell."""
        return self.script("program", "#!/bin/sh\n" + script)

    def is_one_line(self, ran, told, printed=""):
        self.assertEqual((ran.status, ran.printed), (1, printed), ran.told)
        self.assertRegex(ran.told, r"\Aestserve\.py: [^\n]*\n\Z")
        self.assertIn(told, ran.told)

    def fails(self, words, told, typed="", printed=""):
        self.is_one_line(run_client(words, typed), told, printed)

    def fails_over(self, dialogue, words, told):
        self.is_one_line(play_dialogue(DIALOGUES / dialogue, words), told)


class Files(WhatGoesWrong):
    def test_files_that_cannot_be_read(self):
        bad, none = self.file("bad", b"module \xff"), self.folder / "none"
        abro = EXAMPLES / "abro" / "abro.strl"
        for words in (["run"], ["apply"], ["run", abro, "--inputs"]):
            with self.subTest(words):
                self.fails([*words, bad], "is not UTF-8: byte 8")
                self.fails([*words, none], "cannot be read: No such file")
                self.fails([*words, self.folder], "cannot be read: Is a directory")

    def test_files_with_a_byte_order_mark(self):
        marked = self.file("marked", b"\xef\xbb\xbfmodule M: pause end module\n")
        abro = EXAMPLES / "abro" / "abro.strl"
        for words in (["run"], ["format"], ["apply"], ["run", abro, "--inputs"]):
            with self.subTest(words):
                told = f"{marked} begins with a byte order mark: save it as UTF-8 without one\n"
                self.fails([*words, marked], told)

    def test_a_text_and_inputs_from_one_stream(self):
        self.fails(["run", "-"], "name the inputs by --inputs FILE")

    def test_a_vcd_file_that_cannot_be_written(self):
        path = self.folder / "none" / "abro.vcd"
        ran = play_dialogue(
            EXAMPLES / "abro" / "abro.dialogue", run_words("abro", None, "--vcd", path)
        )
        self.is_one_line(ran, "abro.vcd cannot be written: No such file")

    def test_a_policy_that_is_none(self):
        path = self.file("p.toml", "# two users\nusers = [1]\n")
        ran = run_client(["apply", path])
        told = f"{path}:2: a list has strings in double quotes, with commas between them\n"
        self.assertEqual((ran.status, ran.printed, ran.told), (1, "", told))

    def test_an_empty_policy(self):
        ran = play_dialogue(DIALOGUES / "login", ["apply", self.file("p.toml", "")])
        self.assertEqual((ran.status, ran.told), (0, ""))
        self.assertEqual(ran.printed, f"0 there already, 0 added{ALONE}\n")


class Texts(WhatGoesWrong):
    def check_fault(self, dialogue, text, told):
        ran = play_dialogue(DIALOGUES / dialogue, ["run", self.file("m.strl", text)])
        self.assertEqual((ran.status, ran.printed), (1, ""))
        self.assertEqual(ran.told, f"{self.folder}/m.strl:{told}\n")

    def test_a_fault_of_the_text_is_shown_at_its_place(self):
        told = "3:8: Syntax: a name expected\n  emit end module\n       ^"
        self.check_fault("fault_of_a_text", "module M:\noutput O;\n  emit end module\n", told)

    def test_an_empty_text(self):
        self.check_fault("empty_text", "", "1:1: Syntax: `module` expected\n\n^")

    def test_a_fault_that_names_no_place_is_shown_at_its_place_too(self):
        text = "module M: loop nothing end end module\n"
        told = "1:11: InstantLoop: a loop's body can end in the instant in which it begins"
        told += ": the loop stands in M"
        path = f"a path through it that takes no time:\n  {self.folder}/m.strl:1:16: nothing"
        self.check_fault("instant_loop", text, f"{told}\n{text}          ^\n{path}")

    def test_a_module_that_is_not_there(self):
        words = [*run_words("abro"), "--main", "ABBA"]
        self.fails_over("unknown_main", words, "abro.strl: UnknownModule: there is no module ABBA")

    def test_a_module_whose_name_is_none(self):
        words = [*run_words("abro"), "--main", "A-B"]
        self.fails_over("main_out_of_form", words, "NotARequest: A-B is not an identifier")

    def test_a_text_that_fills_no_line(self):
        path = self.file("long.strl", "%" + "x" * 65_536 + "\nmodule M: pause end module\n")
        self.fails(
            ["run", path, "--program", "/bin/true"], "the text is too long: the command takes 65"
        )

    def test_a_name_that_is_no_text(self):
        words = [*run_words("abro"), "--program", "/bin/true", "--main", "A\udcff"]
        self.fails(words, "a word of the command is not UTF-8")


class Inputs(WhatGoesWrong):
    def test_an_input_that_the_module_has_not(self):
        words = [
            "run",
            EXAMPLES / "abro" / "abro.strl",
            "--inputs",
            self.file("wrong", "% comment\nO\n"),
        ]
        told = f"{self.folder}/wrong:2:1: O is an output of ABRO, which nobody can offer\n"
        ran = play_dialogue(DIALOGUES / "only_loaded", words)
        self.assertEqual((ran.status, ran.printed, ran.told), (1, "", told))

    def test_no_instants(self):
        words = ["run", EXAMPLES / "abro" / "abro.strl", "--inputs", self.file("none", "")]
        ran = play_dialogue(DIALOGUES / "only_loaded", words)
        self.assertEqual((ran.status, ran.printed, ran.told), (0, "instant  inputs  outputs\n", ""))


class Programs(WhatGoesWrong):
    def each_command_fails(self, program, told):
        for words in (run_words("abro"), ["shell"], ["apply", EXAMPLES / "team" / "team.toml"]):
            with self.subTest(words):
                self.fails([*words, "--program", program], told)

    def test_one_that_cannot_be_started(self):
        self.each_command_fails(
            "/nowhere/estserve", "/nowhere/estserve cannot be started: No such file"
        )
        self.each_command_fails(self.folder, "cannot be started: Permission denied")
        path = self.file("text", "no program")
        path.chmod(0o755)
        self.each_command_fails(path, "cannot be started: Exec format error")

    def test_none(self):
        with tempfile.TemporaryDirectory() as folder, unittest.mock.patch.object(
            connection, "ROOT", pathlib.Path(folder)
        ):
            with unittest.mock.patch.dict(os.environ, {"PATH": folder, "ESTSERVE": ""}):
                self.fails(
                    run_words("abro"),
                    "there is no program estserve on PATH: it comes with the Debian package, or",
                )

    def test_one_that_goes_away(self):
        self.each_command_fails("/bin/true", "/bin/true ended before it answered anything")
        self.each_command_fails(
            self.program(f"read line; printf '%s' '{LOGIN}'"), "the server has gone away"
        )

    def test_one_that_is_no_estserve(self):
        self.each_command_fails(
            self.program("cat"), 'this is no answer of estserve: \'{"cmd":"login",'
        )
        for answer in ("5", "{}", "[" * 9_999, '{"ok":"logout"}', '{"code":1}', "\\377"):
            self.each_command_fails(
                self.program(f"printf '{answer}\\n'; cat > /dev/null"),
                "this is no answer of estserve",
            )

    def test_one_that_does_not_end(self):
        path = self.program(f"read line; echo '{LOGIN}'; exec sleep 600")
        with unittest.mock.patch.object(connection, "END_SECONDS", 0.1), estserve.start(
            path
        ) as client:
            self.assertEqual(client.login("root", ["root"])["session"], 1)

    def test_one_that_goes_away_in_the_middle(self):
        path = self.program(f"read line; echo '{LOGIN}'; read line")
        greeting = "session 1 of root, with root; help lists the commands\n"
        self.fails(
            ["shell", "--program", path], "the server has gone away", "step 0\nstep 0\n", greeting
        )

    def test_building_without_rt(self):
        words = [*COMMAND, *map(str, run_words("abro")), "--unproved"]
        variables = {**os.environ, "PATH": str(self.folder), "ESTSERVE": ""}
        ran = subprocess.run(words, capture_output=True, text=True, env=variables, timeout=60)
        self.assertEqual((ran.returncode, ran.stdout), (1, ""))
        self.assertEqual(
            ran.stderr.splitlines(),
            [
                "trial.py: rt cannot be started: No such file or directory",
                "estserve.py: the program could not be built: try `make try`",
            ],
        )

    def test_building_outside_of_the_repository(self):
        with unittest.mock.patch.object(connection, "ROOT", str(self.folder)):
            for words in (
                run_words("abro"),
                ["shell"],
                ["apply", EXAMPLES / "team" / "team.toml"],
                ["team", "--state", self.folder / "team"],
            ):
                told = "--unproved builds the program from the sources of the repository, and this client"
                self.fails([*words, "--unproved"], told)
            told = "of it: name a program by --estlab, or by the variable ESTLAB"
            self.fails(["compile", EXAMPLES / "abro" / "abro.strl", "--unproved"], told)


class Pages(WhatGoesWrong):
    def test_a_page_without_aiohttp_leaves_nothing(self):
        folder = self.folder / "team"
        script = (
            "import importlib.util, sys; find = importlib.util.find_spec;"
            "importlib.util.find_spec = lambda name, *a: name != 'aiohttp' and find(name, *a) or None;"
            f"sys.path.insert(0, {str(CLIENTS)!r}); import estserve;"
            f"sys.exit(estserve.main(['team', '--state', {str(folder)!r}, '--http', '127.0.0.1:0',"
            " '--program', sys.executable]))"
        )
        ran = subprocess.run(
            [sys.executable, "-c", script], capture_output=True, text=True, timeout=60
        )
        self.assertEqual((ran.returncode, ran.stdout), (1, ""))
        self.assertIn("the page needs aiohttp", ran.stderr)
        self.assertFalse(folder.exists())


class Servers(WhatGoesWrong):
    def test_one_that_is_not_there(self):
        left, text = self.folder / "left", self.file("text", "")
        with socket.socket(socket.AF_UNIX) as gone:
            gone.bind(str(left))
        for path, told in (
            (self.folder / "none", "No such file"),
            (left, "refused"),
            (text, "refused"),
            ("x" * 200, "too long"),
        ):
            with self.subTest(path):
                self.fails(["shell", "--socket", path], f"no server answers at {path}: ")
                self.fails(["apply", EXAMPLES / "team" / "team.toml", "--socket", path], told)

    def test_one_that_may_not_be_reached(self):
        denied = PermissionError(errno.EACCES, "Permission denied")
        with unittest.mock.patch("socket.socket.connect", side_effect=denied):
            with self.assertRaisesRegex(connection.Disconnected, "may not be opened: folder"):
                connection.open_socket(self.folder / "kept")

    def test_a_user_that_is_denied(self):
        self.fails_over(
            "denied", ["shell", "--user", "nobody"], "UnknownUser: there is no user nobody"
        )
        self.fails_over(
            "unknown_role",
            ["shell", "--role", "root", "none"],
            "UnknownRole: there is no role none",
        )
        self.fails_over(
            "user_out_of_form", ["shell", "--user", "a.b"], "NotARequest: a.b is not a name"
        )

    def test_who_one_is_at_a_gateway(self):
        pings = {
            ("ann", "root"): "root",
            ("ann", "bob"): "ann",
            ("bob",): "bob",
            ("bob", "cho"): None,
            (): None,
        }
        for users, user in pings.items():
            with self.subTest(users), self.gateway(users) as path:
                arguments = argparse.Namespace(socket=path, user=None)
                if user:
                    self.assertEqual(session.user_of(arguments), user)
                else:
                    with self.assertRaisesRegex(Failed, "--user says who logs in at a gateway"):
                        session.user_of(arguments)
        self.assertEqual(
            session.user_of(argparse.Namespace(socket="x/team.sock", user=None)), "root"
        )
        self.assertEqual(session.user_of(argparse.Namespace(socket="x", user="cho")), "cho")

    @contextlib.contextmanager
    def gateway(self, users):
        """A stand-in for a gateway that takes the caller for ann, who may be these users: the path
        of its team's socket.
        """
        with tempfile.TemporaryDirectory() as name, socket.socket(socket.AF_UNIX) as server:
            server.bind(f"{name}/gateway.sock")
            server.listen()

            def answer():
                connected, _ = server.accept()
                with connected, connected.makefile("rwb") as lines:
                    if json.loads(lines.readline()) == {"word": "ping"}:
                        told = {"ok": "ping", "person": "ann", "users": list(users)}
                        lines.write(json.dumps(told).encode() + b"\n")

            thread = threading.Thread(target=answer)
            thread.start()
            yield f"{name}/team.sock"
            thread.join()

    def test_a_user_that_is_no_text(self):
        path = self.program("cat > /dev/null")
        self.fails(
            ["shell", "--program", path, "--user", "\udcff"], "a word of the command is not UTF-8"
        )


class Streams(WhatGoesWrong):
    """The client as a program of its own, whose streams fail."""

    def client(self, words, **streams):
        path = self.program(f"read line; echo '{LOGIN}'; cat > /dev/null")
        words = [*COMMAND, *map(str, words), "--program", str(path)]
        return subprocess.Popen(words, stderr=subprocess.PIPE, text=True, **streams)

    def ends(self, client, status, told):
        said = client.communicate(timeout=60)[1]
        self.assertEqual((client.returncode, said), (status, f"estserve.py: {told}\n"))

    def test_an_output_that_nobody_reads(self):
        read, write = os.pipe()
        os.close(read)
        with os.fdopen(write, "wb") as nobody:
            client = self.client(["shell"], stdin=subprocess.DEVNULL, stdout=nobody)
        self.ends(client, 1, "standard output cannot be written: Broken pipe")

    def test_an_output_that_is_full(self):
        with open("/dev/full", "wb") as full:
            client = self.client(["shell"], stdin=subprocess.DEVNULL, stdout=full)
        self.ends(client, 1, "standard output cannot be written: No space left on device")

    def test_streams_that_are_closed(self):
        words = [
            "sh",
            "-c",
            'exec "$@" <&- >&-',
            "sh",
            *COMMAND,
            "run",
            str(EXAMPLES / "abro" / "abro.strl"),
            "--program",
            "/bin/true",
        ]
        ran = subprocess.run(words, stderr=subprocess.PIPE, text=True, timeout=60)
        self.assertEqual(
            (ran.returncode, ran.stderr),
            (1, "estserve.py: /bin/true ended before it answered anything\n"),
        )

    def test_an_interrupt(self):
        client = self.client(["shell"], stdin=subprocess.PIPE, stdout=subprocess.PIPE)
        client.stdin.write("step 0\n")
        client.stdin.flush()
        self.assertIn("session 1 of root", client.stdout.readline())
        client.send_signal(signal.SIGINT)
        self.ends(client, 130, "interrupted")

    def test_a_line_that_is_no_text(self):
        path = self.program(f"read line; echo '{LOGIN}'; cat > /dev/null")
        typed = b"adduser \xff\nload 0 a\0b\nlook 0 \xc2\xb2\nstep " + b"9" * 5_000 + b"\n\xff\n"
        ran = subprocess.run(
            [*COMMAND, "shell", "--program", str(path)],
            input=typed,
            capture_output=True,
            timeout=60,
        )
        self.assertEqual((ran.returncode, ran.stderr), (1, b""))
        self.assertEqual(
            ran.stdout.decode().splitlines()[1:],
            [
                "line 1: a word of the command is not UTF-8",
                "line 2: the module text a\0b cannot be read: embedded null byte",
                "line 3: ² is no number",
                "line 4: " + "9" * 5_000 + " is no number",
                "line 5: there is no command \\udcff: help lists them",
            ],
        )


class Interrupts(unittest.TestCase):
    """A command that is interrupted before its answer came."""

    class Reader:
        def __init__(self, *reads):
            self.reads = list(reads)

        def read1(self, _):
            read = self.reads.pop(0)
            if read is None:
                raise KeyboardInterrupt
            return read

    def test_its_answer_is_passed_over(self):
        reader = self.Reader(
            b'{"ok":"st', None, b'ep","instant":7}\n{"ok":"check",', b'"allowed":true}\n'
        )
        client = estserve.Client(reader, io.BytesIO(), lambda: None)
        with self.assertRaises(KeyboardInterrupt):
            client.step(0)
        self.assertTrue(client.is_owed)
        self.assertTrue(client.check("step", "0")["allowed"])
        self.assertFalse(client.is_owed)

    def test_a_command_that_was_sent_in_part_ends_the_connection(self):
        class Writer(io.BytesIO):
            def flush(self):
                raise KeyboardInterrupt

        client = estserve.Client(self.Reader(), Writer(), lambda: None)
        with self.assertRaises(KeyboardInterrupt):
            client.step(0)
        with self.assertRaisesRegex(estserve.Disconnected, "broken off while it was sent"):
            client.step(0)


if __name__ == "__main__":
    unittest.main()
