"""The commands that change files, and keep the trail of it: mend, verify, undo."""

from __future__ import annotations

import json
import os
import sqlite3
from contextlib import closing
from typing import Any, Dict, Iterator, List, Optional, Set

from .. import program as programs
from . import asking, schema, script, talk, verify
from .change import Maker
from .choose import Chosen, Links, WrongCondition, chosen, done, one
from .mend import Again, Mend, Plan, clashing, side_by_side
from .names import shown
from .outcomes import TROUBLES, Outcome, counted, summary
from .reading import limit_of
from .trail import SAVED, UNREAD, Lock, Run, Trail
from .words import Unwanted, source

# How the files of a run are read: options without a value, and those with one.
PLAIN = ("fixed", "tail")
VALUED = ("order", "samples", "format", "texts")


def mend(told: Any) -> int:
    """Runs the script on each chosen file: dry, or with --apply.

    The status is 1 where one was refused, left or failed.
    """
    plan = _plan(told)
    program = talk.found()
    with closing(schema.read_only(told.db)) as database:
        try:
            numbers = chosen(database, told.where)
        except WrongCondition as error:
            raise Unwanted(f"{error}: nothing was run") from error
        clash = clashing(plan, _each(database, numbers))
        if clash:
            both = f"{shown(clash[0])} and {shown(clash[1])}"
            raise Unwanted(f"{both} would be saved to one path: nothing was run")
        print(_taken_back(plan))
        if not told.apply:
            run = Mend(plan, _maker(told, program.option, None), None, 0, None)
            outcomes = _run(told, run, plan, _known(database, numbers, plan, set()))
            print(f"{summary(outcomes, False)}\nNothing was written: --apply does it.")
        else:
            outcomes = _applied(told, plan, program, database, numbers)
    return 1 if any(outcomes[event][0] for event in TROUBLES) else 0


def _plan(told: Any) -> Plan:
    if told.over == (told.out is not None):
        raise Unwanted("mend wants --over or --out, one of them")
    if told.keep is not None and not told.over:
        raise Unwanted("--keep is for --over: with --out the files stay as they are")
    if told.in_place and not told.over:
        raise Unwanted("--in-place is for --over: with --out the files stay as they are")
    if told.in_place and not programs.knows("--recover"):
        raise Unwanted("the program is older than a repair in place")
    _able()
    with source(told.script) as file:
        made = script.of(file.read(script.MOST_BYTES + 1))
    if len(made.data) > script.MOST_BYTES:
        raise Unwanted(f"the script has more than {script.MOST_BYTES} bytes")
    if script.saves(made):
        raise Unwanted("the script has a line `save`, which is for sessions: nothing was run")
    folder, kept = (None if one is None else os.path.abspath(one) for one in (told.out, told.keep))
    back = told.over and kept is None and not told.go_on and script.all_sets(made)
    return Plan(made, folder, kept, back, told.in_place, told.twice)


def _able() -> None:
    if not programs.knows("--save-at-end"):
        raise Unwanted("the program is older than --save-at-end, by which files are saved here")


def _taken_back(plan: Plan) -> str:
    """What undo can do later: it is said before anything is done."""
    if plan.folder is not None:
        return "The files stay as they are; what is saved goes below the folder."
    if plan.keep is not None:
        return f"The old bytes are kept in {shown(plan.keep)}: undo can take this back."
    if plan.back:
        return "All edits set numbers, and the old ones are kept: undo can take this back."
    return "The old bytes are not kept: undo CANNOT take this back. --keep FOLDER keeps them."


def _maker(told: Any, option: str, held: Any) -> Maker:
    more = [f"--{name}" for name in PLAIN if getattr(told, name)]
    for name in VALUED:
        if getattr(told, name) is not None:
            more += [f"--{name}", str(getattr(told, name))]
    return Maker(
        lambda size: [*asking.options(size, option), *more], not told.go_on,
        lambda size: limit_of(size, told.limit), held,
    )


def _options(told: Any) -> str:
    """How a run is done, as the trail has it."""
    readings = {name: getattr(told, name) for name in (*PLAIN, *VALUED)}
    return json.dumps({**readings, "go_on": told.go_on, "in_place": told.in_place})


def _each(database: sqlite3.Connection, numbers: List[int]) -> Iterator[Chosen]:
    for number in numbers:
        row = one(database, number)
        if row is not None:
            yield row


def _known(
    database: sqlite3.Connection, numbers: List[int], plan: Plan, unread: Set[str]
) -> Iterator[Chosen]:
    """The files with what is known of them: whether this script has been there, and whether it is
    open what a killed run did.
    """
    links = Links(database, numbers)
    for file in _each(database, numbers):
        target, over = plan.target_text(file), plan.folder is None
        before = done(database, file, target, plan.script.sha256, over)
        same = links.same(file.path, target) if over else ""
        yield file._replace(done=before, open=target in unread, same=same)


def _run(told: Any, run: Mend, plan: Plan, some: Iterator[Chosen]) -> Dict[str, List[int]]:
    def each() -> Iterator[Outcome]:
        for outcome in side_by_side(run.one, some, told.jobs or len(os.sched_getaffinity(0))):
            if not told.quiet:
                print(outcome.told(told.apply, plan.script.lines))
            yield outcome

    return counted(each())


def _applied(
    told: Any, plan: Plan, program: talk.Program, chooser: sqlite3.Connection, numbers: List[int]
) -> Dict[str, List[int]]:
    lock = Lock(told.db)
    try:
        with schema.opened(schema.existing, told.db) as database:
            trail = Trail(database)
            maker = _maker(told, program.option, lock.descriptor)
            run = Run("mend", plan.script, told.where, _options(told), plan.folder, plan.keep)
            number = trail.begin(run, program)
            again = Again(database, trail, number, program, told.limit)
            unread = _settled(trail, again)
            some = _known(chooser, numbers, plan, unread)
            mends = Mend(plan, maker, trail, number, again if plan.folder is None else None)
            outcomes = _run(told, mends, plan, some)
            again.end()
            print(f"{summary(outcomes, True)}\nThis was run {number}: the trail has it.")
            return outcomes
    finally:
        lock.close()


def _settled(trail: Trail, again: Optional[Again]) -> Set[str]:
    """Tells what killed runs did, and reads what they saved anew; the targets that stay open."""
    settled = trail.settle()
    for one in settled:
        print(one.told)
    if again is not None:
        saved = [one.path for one in settled if one.event == SAVED]
        for _ in side_by_side(again, [*saved, *trail.unread_since()], 1):
            pass
    return {one.target for one in settled if one.event == UNREAD}


def verified(told: Any) -> int:
    """Compares the files with the trail. The status is 1 where one differs."""
    lock = Lock(told.db)
    try:
        with schema.opened(schema.existing, told.db) as database:
            trail = Trail(database)
            unread = len(_settled(trail, None))
            same = wrong = 0
            for found in verify.verified(trail, told.jobs or len(os.sched_getaffinity(0))):
                if found.told:
                    wrong += 1
                    print(f"{shown(found.target)}: {found.told}")
                else:
                    same += 1
    finally:
        lock.close()
    print(f"{same:,} files are what the trail says, {wrong:,} are not")
    return 1 if wrong or unread else 0


def undo(told: Any) -> int:
    """Tells what of a run can be taken back, and does it with --apply.

    The status is 1 where something cannot.
    """
    program = talk.found()
    _able()
    lock = Lock(told.db)
    try:
        with schema.opened(schema.existing, told.db) as database:
            trail = Trail(database)
            _settled(trail, None)
            run = _run_of(trail, told.run_number)
            told.go_on, told.in_place = False, run.get("in_place", False)
            for name in (*PLAIN, *VALUED):  # a run of before has no row of the later ones
                setattr(told, name, run.get(name))
            maker = _maker(told, program.option, lock.descriptor)
            taken = verify.Undo(trail, maker, told.run_number, told.in_place)
            steps = list(taken.steps(told.jobs or len(os.sched_getaffinity(0))))
            for step in steps:
                print(f"{shown(step.path)}: {step.told}")
            print(verify.told_of(steps))
            if not told.apply or not any(step.possible for step in steps):
                print("Nothing was written" + ("." if told.apply else ": --apply does it."))
                return 1 if any(step.why for step in steps) else 0
            return _take_back(told, database, trail, taken, steps, program)
    finally:
        lock.close()


def _run_of(trail: Trail, number: int) -> Dict[str, Any]:
    rows = trail.rows("SELECT kind, folder, options FROM mend WHERE id = ?", number)
    if not rows:
        raise Unwanted(f"there is no run {number}")
    if rows[0]["kind"] != "mend":
        raise Unwanted(f"run {number} is itself an undo: mend again what it took back")
    if rows[0]["folder"] is not None:
        raise Unwanted(f"run {number} changed no file: what it saved is below {rows[0]['folder']}")
    options: Dict[str, Any] = json.loads(rows[0]["options"])
    return options


def _take_back(
    told: Any, database: sqlite3.Connection, trail: Trail, taken: verify.Undo,
    steps: List[verify.Step], program: talk.Program,
) -> int:
    run = Run("undo", None, None, _options(told), None, None, told.run_number)
    number = trail.begin(run, program)
    again = Again(database, trail, number, program, told.limit)

    def back(step: verify.Step) -> verify.Step:
        left = taken.take_back(step, number)
        if not left.why:
            again(left.path)
        return left

    done = 0
    jobs = told.jobs or len(os.sched_getaffinity(0))
    for step in side_by_side(back, (step for step in steps if step.possible), jobs):
        done += not step.why
        if step.why:
            print(f"{shown(step.path)}: {step.why}")
    again.end()
    print(f"{done:,} files were taken back. This was run {number}: the trail has it.")
    return 0 if done + sum(step.back is not None for step in steps) == len(steps) else 1
