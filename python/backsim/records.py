"""`dataclass` as Python has it from 3.10 on. In 3.9 classes have no slots, and fields by keyword alone are the last ones."""
from __future__ import annotations

import sys
from typing import TYPE_CHECKING

if TYPE_CHECKING or sys.version_info >= (3, 10):
    from dataclasses import dataclass
else:
    import dataclasses

    def dataclass(cls=None, *, slots=False, kw_only=False, **options):
        def made(own):
            if kw_only:
                # its fields are added to those of each class below it, so this one has none
                own.__last_fields__ = {name: (kind, own.__dict__[name]) for name, kind in own.__annotations__.items()
                                       if name in own.__dict__ and "ClassVar" not in str(kind)}
                return own
            last = getattr(own, "__last_fields__", {})
            stated = own.__dict__.get("__annotations__", {})
            own.__annotations__ = {**stated, **{name: kind for name, (kind, _) in last.items()}}
            for name, (_, usual) in last.items():
                setattr(own, name, usual)
            whole = dataclasses.dataclass(**options)(own)
            whole.__match_args__ = tuple(it.name for it in dataclasses.fields(whole) if it.init and it.name not in last)
            return whole

        return made if cls is None else made(cls)

__all__ = ["dataclass"]
