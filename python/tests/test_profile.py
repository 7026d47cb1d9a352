"""The profile of a journal. The counts of the examples follow from their journals in examples/, others are counted by hand."""
from __future__ import annotations

import pytest
from backsim.errors import FormatError
from backsim.formats.journal import events_of
from backsim.journal.needs import needs_of
from backsim.circuit.rules import read_design
from backsim.journal.profile import MOST_STRETCHES, Profile, Room, Stretch, profile_of, profile_of_events
from backsim.journal.profile_text import profile_lines
from backsim.session.session import Session
from backsim.values import Wave
from conftest import TOP

EXAMPLES = TOP / "examples"
# Two shards with room for one cell each. Line 1 evaluates signal 0 at 5 and signal 1 at 5, then signal 2, which evicts 0; line 2 is
# told 2 and evaluates 0 at 5 again, which evicts 2; a trim evicts one more. Line 4 is refused when it has filled one point and holds
# two. Line 5 asks for a stuck signal: one point in the session's memo, and two cells in a memo of its own.
JOURNAL = """journal shards 2 cells 1
batch 1
shard 0
claim 1 0 5
fill 1 0 5 4 8 1
claim 1 2 9
evict 0 4
fill 1 2 9 9 12 0
shard 1
claim 1 1 5
fill 1 1 5 5 6 x
end
batch 2
shard 0
told 2 2 9 9 12 0
claim 2 0 5
evict 2 9
fill 2 0 5 4 8 1
shard 1
end
trim 3
shard 0
evict 0 4
shard 1
end
batch 4
shard 0
claim 4 0 1
fill 4 0 1 0 3 x
claim 4 2 4
claim 4 0 3
spent 4 2 3 2
drop 4 0 3
drop 4 2 4
shard 1
end
batch 5
shard 0
shard 1
evict 1 5
claim 5 1 7
fill 5 1 7 7 9 0
end
held 6
shard 0
claim 5 2 8
fill 5 2 8 8 9 1
claim 5 0 6
fill 5 0 6 4 9 1
end
"""


def profile(text: str) -> Profile:
    return profile_of_events(event for _, event in events_of([f"{line}\n".encode() for line in text.splitlines()], "journal"))


def test_counts_by_hand() -> None:
    found = profile(JOURNAL)
    assert (found.shards, found.capacity, dict(found.sections)) == (2, 1, {"batch": 4, "trim": 1, "held": 1})
    assert (found.fills, found.again, found.evictions, found.trimmed) == (6, 1, 3, 1)
    assert (found.held_fills, found.held_evictions, found.held_cells) == (2, 0, 2)
    rows = [(question.line, question.claims, question.fills, question.told, question.drops, question.refused_at)
            for question in found.questions.values()]
    assert sorted(rows) == [(1, 3, 3, 0, 0, None), (2, 1, 1, 1, 0, None), (4, 3, 1, 0, 2, 3), (5, 3, 3, 0, 0, None)]
    assert dict(found.signals) == {0: 3, 2: 1, 1: 2}
    assert [question.line for question in found.refused()] == [4]


def test_which_memo_would_hold_everything() -> None:
    """The different cells are 0 from 4 and from 0, 2 from 9, and 1 from 5 and from 7: with two shards 3 and 2."""
    rooms = {room.shards: room.cells for room in profile(JOURNAL).rooms()}
    assert rooms == {1: 5, 2: 3, 4: 2, 8: 2, 16: 2, 32: 2, 64: 2}
    assert Room(1, 65536).fits and not Room(1, 65537).fits


def test_what_happened_when() -> None:
    assert profile(JOURNAL).stretches == [Stretch(1, 1, 3, 0, 1), Stretch(2, 2, 1, 1, 1), Stretch(3, 3, 0, 0, 1), Stretch(4, 4, 1, 0, 0),
                                          Stretch(5, 5, 1, 0, 1)]


def test_a_long_section_is_divided() -> None:
    entries = [line for time in range(1, 321) for line in (f"claim 1 0 {time}", f"fill 1 0 {time} {time} {time + 1} 0")]
    found = profile("\n".join(["journal shards 1 cells 999", "batch 1", "shard 0", *entries, "end"]))
    # ten blocks of 64 entries
    assert found.stretches == [Stretch(1, 1, 32, 0, 0)] * 10


def test_many_sections_are_joined() -> None:
    sections = [line for number in range(1, 301) for line in (f"batch {number}", "shard 0", "end")]
    stretches = profile("\n".join(["journal shards 1 cells 9", *sections])).stretches
    assert len(stretches) <= MOST_STRETCHES and stretches[0].first == 1 and stretches[-1].last == 300
    assert all(one.last + 1 == other.first for one, other in zip(stretches, stretches[1:]))


@pytest.mark.parametrize("name, fills, told", [("c17", {2: 4, 3: 3}, {2: 0, 3: 1}), ("s27", {1: 45}, {1: 8}),
                                               ("pulse", {1: 0, 3: 10, 4: 13, 5: 14, 7: 0, 8: 0}, {1: 0, 3: 0, 4: 13, 5: 13, 7: 1, 8: 1})])
def test_the_examples(name: str, fills: dict[int, int], told: dict[int, int]) -> None:
    found = profile_of(EXAMPLES / name / f"{name}.journal")
    assert {line: question.fills for line, question in found.questions.items()} == fills
    assert {line: question.told for line, question in found.questions.items()} == told
    assert found.again == found.evictions == 0


def test_what_a_question_needs_alone(example) -> None:
    """Of c17: 23 at 3 needs 16 and 19 at 2 and 11 at 1, since 16 is settled by input 2. Of pulse: the wave of caught shows thirteen
    edges, of which each needs pulse at the edge; where trigger was 1 an instant before, at the edges 8 to 20 and 29 to 38, also
    inverted: 13 + 13 + 9."""
    for name, expected in (("c17", {2: 4, 3: 4}), ("pulse", {3: 10, 4: 35, 7: 2, 8: 2})):
        needs = needs_of(profile_of(EXAMPLES / name / f"{name}.journal", keeps_points=True), read_design(*example(name)))
        assert {line: needs[line] for line in expected} == expected
        assert 1 not in needs


def test_the_program_does_with_what_the_profile_says(example, program: str, tmp_path) -> None:
    """With the cells of a room nothing is evicted, with one less something is; a question alone is answered with the budget that it
    needs; and with what it was charged here it is answered again, when asked in the same order."""
    signals = ["G17", "G9", "G11", "G16", "G15", "G12"]

    def ask(budgets: list[int | None], **options: object) -> tuple[list[object], int]:
        with Session(*example("s27"), program=program, workers=1, **options) as session:
            answers = [session.wave(name, 0, 31, budget) for name, budget in zip(signals, budgets)]
            return answers, session.stats().evictions

    journal = tmp_path / "journal"
    waves, evictions = ask([None] * 6, shards=1, cells=20, journal=journal)
    assert evictions > 0 and all(isinstance(wave, Wave) for wave in waves)
    found = profile_of(journal, keeps_points=True)
    for room in found.rooms()[:4]:
        assert ask([None] * 6, shards=room.shards, cells=room.cells) == (waves, 0)
        assert ask([None] * 6, shards=room.shards, cells=room.cells - 1)[1] > 0
    lines = sorted(found.questions)
    charged = [found.questions[line].claims for line in lines]
    assert ask(charged, shards=1, cells=20)[0] == waves
    needs = needs_of(found, read_design(*example("s27")))
    for name, line, wave in zip(signals, lines, waves):
        with Session(*example("s27"), program=program) as session:
            assert session.wave(name, 0, 31, needs[line]) == wave


def test_the_text_says_it() -> None:
    lines = list(profile_lines(profile(JOURNAL), ["a", "b", "c"], {1: "wave a 0 9"}, None, 2))
    assert "evaluations: 6, of these 1 of a point that was evaluated before; evictions: 3, and 1 by trims" in lines
    assert [line.split() for line in lines if line.endswith("wave a 0 9")] == [["1", "3", "0", "3", "wave", "a", "0", "9"]]
    assert "  and 2 more questions, with 4 evaluations" in lines
    assert "refused for their budget: 1 question, of line 4" in lines
    assert "  --shards 2 --cells 3   this session's shards" in lines
    assert any(line.split() == ["0", "3", "2", "a"] for line in lines)
    whole = list(profile_lines(profile(JOURNAL), needs={1: 3}))
    assert [line.split() for line in whole if "more than 3" in line] == [["4", "1", "0", "more", "than", "3", "-"]]


def test_a_journal_without_a_section_has_a_profile() -> None:
    assert profile("journal shards 1 cells 9").fills == 0
    assert "sections: none" in next(profile_lines(profile("journal shards 1 cells 9")))


def test_what_is_no_journal(write) -> None:
    with pytest.raises(FormatError, match=":3: "):
        profile_of(write("journal", "journal shards 1 cells 9\nbatch 1\nnothing\n"))


@pytest.mark.parametrize("text", [JOURNAL, "journal shards 1 cells 9\n"])
def test_the_picture(text: str) -> None:
    pytest.importorskip("matplotlib", reason="matplotlib is missing (Debian's package python3-matplotlib)")
    from backsim.pictures.profile import profile_picture
    assert profile_picture(profile(text), "png", ["$a$", "b", "c"]).startswith(b"\x89PNG")
    assert b"<svg" in profile_picture(profile(text), "svg")
