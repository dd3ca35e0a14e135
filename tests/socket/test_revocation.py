"""A revocation that was answered: from then on it is obeyed on every connection, and what was accepted before it stands."""
import os
import threading
import unittest

from running import Server
from estserve_client.connection import Refusal

ROUNDS = int(os.environ.get("ROUNDS", "100"))
TEXT = "module M: input A; output O; loop present A then emit O end; pause end end module"


def load_modules(root, slots):
    """Root loads the module into these slots, and may step it and look at O."""
    for slot in slots:
        for op, what in [("load", ""), ("step", ""), ("observe", ".O")]:
            root.grant("root", op, f"{slot}{what}")
        root.load(slot, "M", TEXT)


def make_driver(root, client):
    """A user with the role of a driver, which may do nothing yet, logged in at the client."""
    root.adduser("eng")
    root.addrole("driver")
    root.assign("eng", "driver")
    client.login("eng", ["driver"])


class Revocations(unittest.TestCase):
    def denied(self, ask, *words):
        """The refusal that is answered."""
        with self.assertRaises(Refusal) as told:
            ask(*words)
        return told.exception

    def one_round(self, root, driver):
        """A grant, an offer, the revocation, and the step: the offer is in the instant, and no second one is accepted."""
        root.grant("driver", "offer", "0.A")
        self.assertTrue(driver.check("offer", "0.A")["allowed"])
        driver.offer(0, "A")
        version = root.revoke("driver", "offer", "0.A")["version"]
        self.assertFalse(driver.check("offer", "0.A")["allowed"])
        self.assertEqual(self.denied(driver.offer, 0, "A").code, 10)
        step = root.step(0)
        self.assertLessEqual(version, step["version"])
        self.assertEqual(root.look(0, step["instant"])["signals"], [["O", True]])

    def test_it_is_obeyed_at_once_on_another_connection(self):
        done = threading.Event()

        def step_on(client):
            while not done.is_set():
                client.step(1)

        with Server("--workers", "3") as server, server.root() as root, server.client() as driver, server.root() as third:
            load_modules(root, [0, 1])
            make_driver(root, driver)
            stepping = threading.Thread(target=step_on, args=(third,))
            stepping.start()
            try:
                for _ in range(ROUNDS):
                    self.one_round(root, driver)
            finally:
                done.set()
                stepping.join()

    def test_a_session_that_lost_its_role_has_ended(self):
        with Server("--workers", "2") as server, server.root() as root, server.client() as driver:
            load_modules(root, [0])
            make_driver(root, driver)
            root.grant("driver", "offer", "0.A")
            driver.offer(0, "A")
            root.deassign("eng", "driver")
            self.assertEqual(self.denied(driver.offer, 0, "A").code, 4)
            self.assertFalse(driver.check("offer", "0.A")["allowed"])
            root.discard(0)
            step = root.step(0)
            self.assertEqual(root.look(0, step["instant"])["signals"], [["O", False]])


if __name__ == "__main__":
    unittest.main()
