"""Plans: the commands that run the parts of a script on more machines, and join their replies."""
from __future__ import annotations

import os
import shlex
import shutil
from collections.abc import Sequence

from ..records import dataclass
from ..session.program import TOP


@dataclass(frozen=True, slots=True)
class Plan:
    """What is to be run: the words of a session without its journal, the script, the count of parts and their folder."""

    program: str
    files: Sequence[str]
    options: Sequence[str]
    script: str
    parts: int
    folder: str

    def split(self) -> str:
        """The command that makes the parts."""
        return shlex.join([*tool(), "split", self.script, str(self.parts), self.folder])

    def join(self) -> str:
        """The command that joins the replies."""
        return shlex.join([*tool(), "join", self.folder]) + " > replies"

    def session(self, journal: str) -> str:
        """The words of a session of one part; the journal's name is already quoted."""
        return f"{shlex.join([self.program, *self.options, '--', *self.files])} {journal}"


def tool() -> list[str]:
    """The words that begin a command of this package."""
    launcher = os.path.join(TOP, "backsim-tools")
    if shutil.which("backsim-tools"):
        return ["backsim-tools"]
    return [launcher] if os.path.isfile(launcher) else ["python3", "-m", "backsim"]


def parallel(plan: Plan) -> str:
    """By GNU parallel on this machine: what a job log says to be done is not run again, and what failed is."""
    part = shlex.quote(f"{plan.folder}/") + "{}"
    command = f"{plan.session(part + '.journal')} < {part}.script > {part}.replies"
    numbers = " ".join(map(str, range(1, plan.parts + 1)))
    log = shlex.quote(f"{plan.folder}/joblog")
    return "\n".join([plan.split(), f"parallel --joblog {log} --resume --resume-failed {shlex.quote(command)} ::: {numbers}", plan.join()])


def slurm(plan: Plan) -> str:
    """By an array of Slurm, on a file system that all machines have; the second command waits until all parts have ended."""
    part = shlex.quote(f"{plan.folder}/") + "$SLURM_ARRAY_TASK_ID"
    command = f"{plan.session(part + '.journal')} < {part}.script > {part}.replies"
    log = shlex.quote(f"{plan.folder}/%a.log")
    return "\n".join([plan.split(), f"sbatch --wait --array=1-{plan.parts} --output={log} --wrap {shlex.quote(command)}", plan.join()])

