"""What a command says that asked for a value and got none."""
from __future__ import annotations

from ..errors import BacksimError, UsageError, type_of_path
from ..values import Budget, Past, Unknown


class TooDear(BacksimError):
    """A budget did not suffice for what a command asked."""

    status = 1


def no_value_of(answer: Unknown | Past | Budget, netlist: type_of_path, stimulus: type_of_path, what: str,
                horizon: str = "") -> BacksimError:
    """The error of a command that asked for `what`, a signal or a signal at a time, and got no value; `horizon` says more of a time that
    is after it."""
    if isinstance(answer, Unknown):
        near = f"; near it: {', '.join(answer.nearest)}" if answer.nearest else ""
        return UsageError(f"{netlist}: there is no signal {answer.name}{near}")
    if isinstance(answer, Past):
        return UsageError(f"{stimulus}: the time {answer.stop - 1} is after the horizon{horizon}")
    return TooDear(f"{answer.budget} evaluations did not suffice for {what}; --budget allows more")
