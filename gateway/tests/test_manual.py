"""The page of the manual."""
import argparse
import os
import re
import shutil
import subprocess
import unittest

import teams
from estserve_team import administrator_words, command, reads, visiting

MANUAL = teams.ROOT / "gateway" / "man" / "estserve-team.1"


def team_parser():
    """The words of the command `team`."""
    parser = argparse.ArgumentParser()
    command.add_parser(parser.add_subparsers())
    return parser._actions[-1].choices["team"]


class Help(unittest.TestCase):
    def test_it_says_which_words_need_a_login(self):
        shown = team_parser()._subparsers._group_actions[0].choices
        words = {**administrator_words.WORDS, **reads.WORDS, **visiting.WORDS}
        self.assertLess({"slots", "kick", "retract", "archive", "who"}, set(words))
        for name in set(words) & set(shown):
            is_said = "this needs --as USER" in " ".join(shown[name].format_help().split())
            self.assertEqual(is_said, words[name].needs_session, name)


class Page(unittest.TestCase):
    def test_it_has_each_word_and_option(self):
        team = team_parser()
        text = MANUAL.read_text().replace("\\-", "-")
        shown = [action for action in team._actions if action.help != argparse.SUPPRESS]
        options = {word for action in shown for word in action.option_strings} - {"-h", "--help"}
        for word in options:
            self.assertEqual(
                len(re.findall(rf"(?m)^\.TP\n\.B[IR]* {word}(?![\w-])", text)), 1, word
            )
        for word in team._subparsers._group_actions[0].choices:
            self.assertEqual(len(re.findall(rf"(?m)^\.TP\n\.BI? {word}( \"|$)", text)), 1, word)

    @unittest.skipUnless(
        shutil.which("man") and shutil.which("groff"), "man or groff is not installed"
    )
    def test_it_is_without_warnings(self):
        words = ["man", "--warnings", "-E", "UTF-8", "-l", "-Tutf8", "-Z", str(MANUAL)]
        variables = {**os.environ, "MANROFFSEQ": "", "LC_ALL": "C.UTF-8"}
        ran = subprocess.run(words, capture_output=True, text=True, env=variables)
        self.assertEqual((ran.returncode, ran.stderr), (0, ""))


if __name__ == "__main__":
    unittest.main()
