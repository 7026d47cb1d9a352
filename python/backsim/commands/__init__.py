"""The commands of `backsim-tools`, a module each, imported when one is asked for."""
from __future__ import annotations

import os


def listed() -> tuple[str, ...]:
    """The names of the commands, in order."""
    modules = (name.removesuffix(".py") for name in os.listdir(os.path.dirname(__file__)) if name.endswith(".py"))
    return tuple(sorted(module.replace("_", "-") for module in modules if not module.startswith("_")))
