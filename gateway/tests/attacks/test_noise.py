"""Bytes at random, and words and requests that were changed at random: each is answered or refused,
nothing of it is a fault of the gateway, and the others go on."""
import contextlib
import json
import socket
import unittest

import teams
import visitors
from teams import Team, random_of
from test_operator import log_of
from visitors import visitor_of

WORDS = 1_500
REQUESTS = 400
NAMES = "who slots policy why log archive link health visits kick close retract ping login".split()
KEYS = "slot user op object instant last before person visit signal roles text more".split()
VALUES = [
    0,
    1,
    -1,
    15,
    16,
    2**63,
    2**70,
    0.5,
    True,
    None,
    "",
    "root",
    "0",
    "policy",
    "\ud800",
    [],
    {},
]
HEADS = [
    b"Host: x", b"Content-Length: 5", b"Content-Length: -1", b"Transfer-Encoding: chunked",
    b"Content-Type: application/json", b"Cookie: a=b", b"Upgrade: websocket", b"Connection: upgrade",
    b"X-Estserve-Token: \xff", b"Expect: 100-continue", b"Range: bytes=0-", b": ", b"\x00", b"a" * 9_000,
]  # fmt: skip


def some_value(numbers, depth=0):
    """Some value of JSON."""
    if depth < 3 and numbers.random() < 0.2:
        return [some_value(numbers, depth + 1) for _ in range(numbers.randrange(4))]
    return numbers.choice(VALUES)


def some_word(numbers):
    """The line of some word, most often one that is none."""
    asked = {"word": numbers.choice(NAMES)} if numbers.random() < 0.95 else {}
    for key in numbers.sample(KEYS, numbers.randrange(4)):
        asked[key] = some_value(numbers)
    line = bytearray(json.dumps(asked).encode())
    if numbers.random() < 0.2:
        line[numbers.randrange(len(line))] = numbers.randrange(256)
    return bytes(line).replace(b"\n", b" ")


def some_request(numbers, host):
    """The bytes of some request, most often one that is wrong."""
    method = numbers.choice([b"GET", b"POST", b"PUT", b"HEAD", b"OPTIONS", b"\x16\x03\x01"])
    path = numbers.choice(
        ["/", "/api/me", "/api/enter", "/api/ask", "/health", "/page/%2e%2e", "//"]
    )
    heads = [f"Host: {host}".encode(), f"Origin: http://{host}".encode()]
    heads += numbers.sample(HEADS, numbers.randrange(4))
    text = method + b" " + path.encode() + b" HTTP/1.1\r\n" + b"\r\n".join(heads) + b"\r\n\r\n"
    text += numbers.choice([b"", b"{}", b'{"link":"x"}', b"[" * 5_000, b"0\r\n\r\n"])
    if numbers.random() < 0.3:
        text = text[: numbers.randrange(len(text))]
    return text


class Noise(unittest.TestCase):
    def test_words_at_random(self):
        numbers = random_of("words")
        with Team() as team, team.root() as client:
            with team.words() as words:
                words.word("login", user="root", roles=["root"])
                for _ in range(WORDS):
                    line = some_word(numbers)
                    if b'"archive"' in line or b'"kick"' in line and teams.ME.encode() in line:
                        continue
                    answer = json.loads(words.ask(line))
                    self.assertTrue(("ok" in answer) != ("code" in answer), line)
                    self.assertNotEqual(answer.get("why"), "the gateway has a fault", line)
            self.assertEqual(client.addrole("one")["ok"], "addrole")
            self.assertEqual([one for one in log_of(team) if one["kind"] == "fault"], [])

    def test_bytes_at_random_at_each_socket(self):
        numbers = random_of("bytes")
        with Team() as team, team.root() as client:
            for at in range(120):
                name = ("team.sock", "gateway.sock", "metrics.sock")[at % 3]
                with socket.socket(socket.AF_UNIX) as connection, contextlib.suppress(OSError):
                    connection.connect(str(team.state / name))
                    connection.settimeout(5)
                    connection.sendall(numbers.randbytes(numbers.randrange(1, 200_000)))
                    connection.shutdown(socket.SHUT_WR)
                    while connection.recv(65_536):
                        pass
            self.assertEqual(client.addrole("one")["ok"], "addrole")
            self.assertEqual([one for one in log_of(team) if one["kind"] == "fault"], [])

    @unittest.skipUnless(visitors.HAS_AIOHTTP, visitors.NO_AIOHTTP)
    def test_requests_at_random(self):
        numbers = random_of("requests")
        with visitors.Team("--http", "127.0.0.1:0", "--limit", "header_seconds=1") as team:
            visitor = visitor_of(team, "root", "root")
            host, _, port = visitor.host.partition(":")
            for _ in range(REQUESTS):
                with contextlib.suppress(OSError), socket.create_connection(
                    (host, int(port)), timeout=5
                ) as connection:
                    connection.sendall(some_request(numbers, visitor.host))
                    connection.shutdown(socket.SHUT_WR)
                    told = connection.recv(65_536)
                    self.assertTrue(told.startswith(b"HTTP/1.") or not told, told)
                    self.assertNotEqual(told[9:12], b"500", told)
            self.assertEqual(visitor.ask("1", "addrole", role="one")["reply"]["ok"], "addrole")
            told = log_of(team)
            self.assertEqual([one for one in told if one["kind"] == "fault"], [])
            self.assertLessEqual(len([one for one in told if one["kind"] == "library"]), REQUESTS)


if __name__ == "__main__":
    unittest.main()
