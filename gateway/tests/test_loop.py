"""The loop on which pipes go a shorter way: what a transport promises, and that nothing else waits."""
import asyncio
import socket
import unittest

import teams  # noqa: F401  (which finds the package)
from estserve_team.loop import MOST_HELD, Loop, Pipe

SIZE = 4_000_000


class Told(asyncio.Protocol):
    """What a protocol was told."""

    def __init__(self, act=None):
        self.act, self.data, self.told = act, bytearray(), []
        self.transport = None

    def connection_made(self, transport):
        self.transport = transport
        self.told.append("made")

    def data_received(self, data):
        self.data += data
        if self.act:
            self.act(self)

    def eof_received(self):
        self.told.append("eof")
        return True

    def pause_writing(self):
        self.told.append("pause")

    def resume_writing(self):
        self.told.append("resume")

    def connection_lost(self, fault):
        self.told.append("lost")


class Pipes(unittest.TestCase):
    def setUp(self):
        self.loop = Loop()
        self.addCleanup(self.loop.close)
        self.faults = []
        self.loop.set_exception_handler(lambda _, told: self.faults.append(told["exception"]))

    def pipe(self, act=None):
        """A protocol on a pipe, and the other end, which does not wait for long."""
        ours, theirs = socket.socketpair()
        ours.setblocking(False)
        theirs.settimeout(teams.WAIT_SECONDS)
        self.addCleanup(ours.close)
        self.addCleanup(theirs.close)
        told = Told(act)
        Pipe(self.loop, ours, told)
        return told, theirs

    def until(self, what):
        """Runs the loop until something is so."""

        async def wait():
            while not what():
                await asyncio.sleep(0.001)

        self.loop.run_until_complete(asyncio.wait_for(wait(), teams.WAIT_SECONDS))

    def test_more_than_the_system_takes_waits_and_comes_whole(self):
        told, theirs = self.pipe()
        text = bytes(range(256)) * (SIZE // 256)
        told.transport.write(text)
        self.assertGreater(len(text), MOST_HELD)
        self.assertEqual(told.told, ["made", "pause"])
        told.transport.close()
        theirs.setblocking(False)
        came = bytearray()

        def has_all():
            try:
                came.extend(theirs.recv(1 << 20))
            except BlockingIOError:
                pass
            return "lost" in told.told and len(came) >= len(text)

        self.until(has_all)
        self.assertEqual(came, text)

    def test_one_that_reads_again_is_told_of_it(self):
        told, theirs = self.pipe()
        told.transport.write(bytes(SIZE))
        theirs.setblocking(False)

        def reads():
            try:
                theirs.recv(1 << 20)
            except BlockingIOError:
                pass
            return "resume" in told.told

        self.until(reads)
        self.assertEqual(told.told, ["made", "pause", "resume"])

    def test_after_the_last_line_answers_go_out_still(self):
        told, theirs = self.pipe()
        theirs.sendall(b"line\n")
        theirs.shutdown(socket.SHUT_WR)
        self.until(lambda: "eof" in told.told)
        told.transport.resume_reading()  # which tells of the end no second time
        told.transport.write(b"answer\n")
        self.assertEqual(theirs.recv(100), b"answer\n")
        self.until(lambda: True)
        self.assertEqual((bytes(told.data), told.told), (b"line\n", ["made", "eof"]))

    def test_one_that_is_paused_is_read_when_it_goes_on(self):
        told, theirs = self.pipe()
        told.transport.pause_reading()
        theirs.sendall(b"line\n")
        self.loop.run_until_complete(asyncio.sleep(0.02))
        self.assertEqual(told.data, b"")
        told.transport.resume_reading()
        self.until(lambda: told.data == b"line\n")

    def test_a_peer_that_has_gone_is_lost_where_something_is_written(self):
        told, theirs = self.pipe()
        told.transport.pause_reading()
        theirs.close()
        told.transport.write(b"answer\n")
        self.until(lambda: "lost" in told.told)
        self.assertTrue(told.transport.is_closing())

    def test_a_fault_ends_one_connection_alone(self):
        def fail(_):
            raise ValueError("a fault")

        told, theirs = self.pipe(fail)
        other, others = self.pipe()
        theirs.sendall(b"line\n")
        others.sendall(b"line\n")
        self.until(lambda: "lost" in told.told and other.data == b"line\n")
        self.assertEqual([str(fault) for fault in self.faults], ["a fault"])
        self.assertEqual(other.told, ["made"])

    def test_timers_and_others_come_though_two_pipes_never_rest(self):
        def answer(told):
            told.transport.write(bytes(told.data))
            told.data.clear()

        ours, theirs = socket.socketpair()
        for end in (ours, theirs):
            end.setblocking(False)
            Pipe(self.loop, end, Told(answer)).write(b"x")
        ran = []
        self.loop.call_later(0.02, ran.append, "timer")
        self.loop.call_soon(ran.append, "soon")
        self.loop.run_in_executor(
            None, lambda: self.loop.call_soon_threadsafe(ran.append, "thread")
        )
        self.until(lambda: len(ran) == 3)
        self.assertEqual(set(ran), {"timer", "soon", "thread"})


if __name__ == "__main__":
    unittest.main()
