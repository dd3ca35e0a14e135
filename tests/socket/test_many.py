"""Many clients at a time: what they are answered, and that none holds up another."""
import os
import threading
import unittest

from running import Server, report

CLIENTS = 8
COMMANDS = int(os.environ.get("COMMANDS", "2000"))  # of each client
SLOW_LINES = 10_000
LINE = b'{"cmd":"check","object":"0","op":"load"}\n'
TEXT = "module M: input A; output O; loop present A then emit O end; pause end end module"


def together(works):
    """Does these works, each in a thread of its own, and fails as the first of them that fails."""
    faults = []

    def do(work):
        try:
            work()
        except BaseException as fault:
            faults.append(fault)

    threads = [threading.Thread(target=do, args=(work,)) for work in works]
    for thread in threads:
        thread.start()
    for thread in threads:
        thread.join()
    if faults:
        raise faults[0]


def grant_slots(root, slots):
    """Grants root all that a run of the module `M` needs in these slots."""
    for slot in slots:
        for op, what in [("load", ""), ("step", ""), ("offer", ".A"), ("observe", ".A"), ("observe", ".O")]:
            root.grant("root", op, f"{slot}{what}")


def one_round(number, slot):
    """The commands of a client's round: every other instant has A."""
    offers = [{"cmd": "offer", "signal": "A", "slot": slot}] if number % 2 else []
    return [*offers, {"cmd": "step", "slot": slot}, {"cmd": "look", "instant": number, "slot": slot}]


def audits(root):
    """The version, and the lines that a report has of the slots, into each of which one module was loaded at most."""
    told = {slot: root.audit(slot) for slot in range(16)}
    counts = {slot: (answer["entries"], answer["instants"]) for slot, answer in told.items() if answer["entries"]}
    lines = [f"slot {slot}: {entries} entries, 1 loads, {instants} instants" for slot, (entries, instants) in counts.items()]
    return told[0]["version"], lines


class ManyClients(unittest.TestCase):
    def change_policy(self, root, done):
        """Grants and revokes the sight of O in each slot, until it is done. The versions count each."""
        version = root.grant("root", "audit", "policy")["version"]
        while not done.is_set():
            for command in (root.revoke, root.grant):
                answers = [command("root", "observe", f"{slot}.O")["version"] for slot in range(CLIENTS)]
                self.assertEqual(answers, list(range(version + 1, version + CLIENTS + 1)))
                version += CLIENTS

    def drive_own(self, client, slot):
        """The answers on a slot of the client's own are those of the module, at versions that never fall."""
        client.load(slot, "M", TEXT)
        commands = [command for number in range(1, COMMANDS // 2) for command in one_round(number, slot)][:COMMANDS]
        place, instant, version = 1, 0, 0
        for command, answer in zip(commands, client.ask_all(commands)):
            self.assertLessEqual(version, answer["version"])
            version = answer["version"]
            if command["cmd"] == "look":
                a = ["A", bool(instant % 2)]
                self.assertEqual(answer["instant"], instant)
                self.assertIn(answer["signals"], ([a, ["O", bool(instant % 2)]], [a]))
            else:
                place += 1
                instant += command["cmd"] == "step"
                self.assertEqual(answer["place"], place)
                if command["cmd"] == "step":
                    self.assertEqual(answer["instant"], instant)

    def with_clients(self, work):
        """Has each client do its work in a thread, while a further one changes the policy."""
        words = "--workers", str(CLIENTS + 1), "--connections", "1"
        with Server(*words) as server, server.root() as root:
            grant_slots(root, range(CLIENTS))
            clients = [server.root() for _ in range(CLIENTS)]
            done = threading.Event()

            def work_all():
                try:
                    together([lambda at=at, client=client: work(at, client) for at, client in enumerate(clients)])
                finally:
                    done.set()

            together([work_all, lambda: self.change_policy(root, done)])
            version, lines = audits(root)
            for client in [*clients, root]:
                client.close()
            self.assertEqual(server.end(), (0, report(version + CLIENTS + 1, *lines), b""))

    def test_each_on_its_own_slot(self):
        self.with_clients(lambda at, client: self.drive_own(client, at))

    def test_all_on_one_slot(self):
        loaded, taken, kept = threading.Event(), [], threading.Lock()

        def drive(at, client):
            if at == 0:
                client.load(0, "M", TEXT)
                loaded.set()
            loaded.wait(60)
            answers = client.ask_all([{"cmd": "step", "slot": 0}] * COMMANDS)
            with kept:
                taken.append([(answer["place"], answer["instant"], answer["version"]) for answer in answers])

        self.with_clients(drive)
        for answers in taken:
            self.assertEqual(answers, sorted(answers))
        steps = sorted(step for answers in taken for step in answers)
        self.assertEqual([place for place, _, _ in steps], list(range(2, CLIENTS * COMMANDS + 2)))
        self.assertEqual([instant for _, instant, _ in steps], list(range(1, CLIENTS * COMMANDS + 1)))
        versions = [version for _, _, version in steps]
        self.assertEqual(versions, sorted(versions))


class SlowReader(unittest.TestCase):
    def test_it_holds_nobody_up(self):
        with Server("--workers", "2") as server, server.root() as slow, server.root() as client:
            sending = threading.Thread(target=lambda: slow._send([LINE] * SLOW_LINES))
            sending.start()
            for _ in range(500):
                self.assertFalse(client.check("load", "0")["allowed"])
            self.assertTrue(client.grant("root", "load", "0"))
            answers = [slow._receive()["allowed"] for _ in range(SLOW_LINES)]
            sending.join()
            self.assertEqual(answers, sorted(answers))
            self.assertIn(False, answers)


if __name__ == "__main__":
    unittest.main()
