"""Compares the C of a module with its closed table, for every state and every set of inputs; or on
random walks with the program estserve.
"""
from __future__ import annotations

import os
import random
import shutil
import subprocess
import tempfile
from typing import Iterable, Iterator, List, Optional, Sequence

from ..connection import Refusal, start
from ..scenarios import Refused, Scenario, Stage
from ..texts import Failed
from .c_cells import CellsCode
from .c_code import BROKEN, NOT_INPUTS, OK, STUCK, Code, TableCode, keeps

REFUSED = ("Stuck", "Excluded", "Implied")  # what an instant of a walk may be refused as
COMPILERS = ("cc", "gcc", "clang")
STRICT = ["-std=c99", "-pedantic", "-Wall", "-Wextra", "-Werror", "-O1"]
DRIVER = """\
/* Tells what the module does in every state, with every set of inputs, and with what is no input. */
#include <inttypes.h>
#include <stdio.h>
#include "{name}.h"

static void tell(uint32_t state, uint64_t inputs) {{
  struct {name} machine = {{state}};
  uint64_t given;
  int status = {name}_react(&machine, inputs, &given);
  printf("%d %" PRIx64 " %" PRIu32 "\\n", status, given, machine.state);
}}

int main(void) {{
  for (uint32_t state = 0; state < {prefix}_STATES; state++) {{
    uint64_t inputs = 0;
    do {{
      tell(state, inputs);
      inputs = (inputs - {prefix}_INPUTS) & {prefix}_INPUTS;
    }} while (inputs);
    tell(state, ~{prefix}_INPUTS);
  }}
  return 0;
}}
"""


WALKER = """\
/* Tells what the module does with the inputs of standard input: a set a line; a line `r` resets it. */
#include <inttypes.h>
#include <stdio.h>
#include "{name}.h"

static struct {name} machine;

int main(void) {{
  char line[32];
  uint64_t inputs, given;
  {name}_reset(&machine);
  while (fgets(line, sizeof line, stdin)) {{
    if (line[0] == 'r') {{
      {name}_reset(&machine);
    }} else if (sscanf(line, "%" SCNx64, &inputs) == 1) {{
      int status = {name}_react(&machine, inputs, &given);
      printf("%d %" PRIx64 "\\n", status, given);
    }}
  }}
  return 0;
}}
"""
WALKS, STEPS, TRIES = 20, 100, 100


def compiler() -> List[str]:
    """The words of the compiler of C: those of the variable CC, or one that is found. Raises
    Failed.
    """
    words = os.environ.get("CC", "").split()
    if words:
        return words
    for name in COMPILERS:
        if shutil.which(name):
            return [name]
    raise Failed("there is no compiler of C: install gcc, or name one by the variable CC")


def input_sets(names: Sequence[str]) -> Iterator[List[str]]:
    """All sets of these inputs, in the order of their numbers."""
    for number in range(1 << len(names)):
        yield [name for place, name in enumerate(names) if number >> place & 1]


def built(code: Code, folder: str, driver: str, text: str) -> str:
    """A program of the C in a folder and this driver. Raises Failed where it isn't compiled."""
    program = os.path.join(driver, "driver")
    source = program + ".c"
    with open(source, "w", encoding="ascii") as file:
        file.write(text.format(name=code.name, prefix=code.prefix))
    files = [source, os.path.join(folder, code.name + ".c")]
    words = [*compiler(), *STRICT, f"-I{folder}", *files, "-o", program]
    made = subprocess.run(words, stdout=subprocess.PIPE, stderr=subprocess.STDOUT)
    if made.returncode:
        raise Failed("the C isn't compiled:\n" + made.stdout.decode(errors="replace"))
    return program


def told_by(code: TableCode, folder: str, driver: str) -> Iterator[str]:
    """What the C tells, a line for each state and set. Raises Failed."""
    program = built(code, folder, driver, DRIVER)
    with subprocess.Popen([program], stdout=subprocess.PIPE) as child:
        assert child.stdout
        yield from (line.decode().rstrip("\n") for line in child.stdout)


def wanted_by(code: TableCode) -> Iterator[str]:
    """What the table has, a line for each state and set."""
    inputs = code.subject.module.inputs()
    others = (1 << 64) - 1 - code.mask(inputs)
    for state in range(len(code.table.states)):
        for names in input_sets(inputs):
            status, given, after = code.answer(state, names)
            yield f"{status} {given:x} {after}"
        yield f"{NOT_INPUTS} {others:x} {state}"


def compare(code: TableCode, folder: str) -> int:
    """Compares the C in a folder with the table. Answers how many pairs of a state and a set were
    compared. Raises Failed where they differ.
    """
    each = (1 << len(code.subject.module.inputs())) + 1
    count = 0
    with tempfile.TemporaryDirectory(prefix="estserve-") as driver:
        told = told_by(code, folder, driver)
        for count, wanted in enumerate(wanted_by(code), 1):
            got = next(told, "nothing")
            if got != wanted:
                state, place = divmod(count - 1, each)
                where = f"state {state}, input set {place}"
                raise Failed(f"the C differs at {where}: `{got}` and not `{wanted}`")
        if next(told, None) is not None:
            raise Failed("the C tells more than the table has")
    return count - len(code.table.states)


def walk(code: CellsCode, dice: random.Random) -> List[List[str]]:
    """The inputs of a random walk. Each set is lawful, but for the last one, where a set was found
    that breaks one relation.
    """
    names = code.subject.module.inputs()
    found: List[List[str]] = []
    for _ in range(STEPS):
        share = dice.choice((0.1, 0.3, 0.6))
        sets = ([name for name in names if dice.random() < share] for _ in range(20))
        found.append(next((one for one in sets if not code.broken(one)), []))
    return found + breaking(code, dice)


def breaking(code: CellsCode, dice: random.Random) -> List[List[str]]:
    """A random set of inputs that breaks just one relation; none where none is found."""
    names = code.subject.module.inputs()
    for _ in range(TRIES if code.relations else 0):
        one = [name for name in names if dice.random() < 0.4]
        if sum(not keeps(relation, one) for relation in code.relations) == 1:
            return [one]
    return []


def played(code: CellsCode, stage: Stage, word: Iterable[Sequence[str]]) -> Iterator[str]:
    """What estserve does with a walk, as the C tells it, up to an instant that is refused. Raises
    Failed.
    """
    module = code.subject.module
    listed = "\n".join(" ".join(names) or ";" for names in word)
    scenario = Scenario(code.subject.library, module, listed)
    stage.load(scenario)
    outputs = module.outputs()
    try:
        for instants in stage.play(scenario):
            for signals in instants:
                yield f"{OK} {code.mask(name for name in outputs if signals[name]):x}"
    except Refused as fault:
        refusal = fault.__cause__
        if not isinstance(refusal, Refusal) or fault.fault not in REFUSED:
            raise
        if fault.fault == "Stuck":
            yield f"{STUCK} {code.mask(refusal.fields['undecided']):x}"
        else:
            yield f"{BROKEN} {refusal.fields['relation']:x}"


def same(code: CellsCode, wanted: str, got: str, names: Sequence[str]) -> bool:
    """Whether the C tells what estserve does. Of an inputoutput that is offered estserve doesn't say
    whether it was emitted.
    """
    status, _, given = got.partition(" ")
    if status != str(OK):
        return got == wanted
    kinds = code.subject.module.kinds()
    offered = code.mask(name for name in names if kinds[name] == "inout")
    return f"{status} {int(given or '0', 16) | offered:x}" == wanted


def compare_walks(code: CellsCode, folder: str, program: Optional[str]) -> int:
    """Compares the C in a folder with estserve on random walks. Answers how many instants were
    compared. Raises Failed where they differ.
    """
    dice, count = random.Random(code.digest), 0
    with tempfile.TemporaryDirectory(prefix="estserve-") as driver, Stage(
        lambda: start(program)
    ) as stage:
        walker = built(code, folder, driver, WALKER)
        for number in range(WALKS):
            word = walk(code, dice)
            given = "".join(f"{code.mask(names):x}\n" for names in word)
            ran = subprocess.run([walker], input=given.encode(), stdout=subprocess.PIPE)
            told = ran.stdout.decode().splitlines()
            for at, wanted in enumerate(played(code, stage, word)):
                got = told[at] if at < len(told) else "nothing"
                if not same(code, wanted, got, word[at]):
                    where = f"walk {number + 1}, instant {at + 1}"
                    raise Failed(f"the C differs at {where}: `{got}` and not `{wanted}`")
                count += 1
    return count
