"""Carries out the lines of all clients, one after the other, and goes on from the log where the program has ended."""

import asyncio
import logging
from collections import deque
from typing import NamedTuple

from fleet.serve.clock import Clock
from fleet.serve.commits import Committer, Done
from fleet.serve.decisions import Decisions
from fleet.serve.hub import Hub
from fleet.serve.known import Known
from fleet.serve.log import Log
from fleet.serve.peers import Item
from fleet.serve.process import Answer, OutOfPatience, Program, ProgramEnded
from fleet.serve.records import Record
from fleet.serve.renewal import Renewal
from fleet.serve.rolling import Roller, Rolling
from fleet.serve.runner import Runner
from fleet.serve.thread import Thread
from fleet.serve.turns import Turns
from fleet.serve.wire import Kind, Refusal, told
from fleet.ways.planes import plane_in
from fleet.words import INPUT_LIMIT, REFUSALS

MOST_LINES = 64
"""How many lines are sent to the program at once, where it answers them soon."""
_SOON_SECONDS = 0.05
_MOST_TRIES = 3
"""How often a line is tried alone with which a signal has ended the program."""
_INPUT_RESERVE = 1 << 20
"""The bytes of input that are left to a program when another takes over."""
_LOOK_SECONDS = 1.0
"""How often it is looked whether a log that couldn't be written has room again."""

_JOURNAL_FULL = f"refused 18 {REFUSALS[18]}".encode()

_LOGGER = logging.getLogger("fleet.serve")


class Settings(NamedTuple):
    """How lines are carried out: the seconds that one may take, the entries at which the log is rolled, and whether
    each line is synced by itself."""

    patience: float
    most_entries: int
    each: bool


class Engine:
    """The one that asks the program.

    What the program has answered waits in the committer until it is in the log. A line that has no reply when the
    program ends isn't in the log, and neither is it in the state of the program that is started then.
    """

    def __init__(
        self, log: Log, runner: Runner, thread: Thread, hub: Hub, turns: Turns, decisions: Decisions, settings: Settings,
        roller: Rolling | None = None,
    ) -> None:
        self.committer = Committer(log, thread, self._pass_on, self._refuse_unkept, each=settings.each)
        self._log = log
        self._runner = runner
        self._thread = thread
        self._hub = hub
        self._turns = turns
        self._decisions = decisions
        self._patience = settings.patience
        self._renewal = Renewal(log, runner, thread)
        self._roller = roller or Roller(log, runner, thread, settings.most_entries, turns.wake)
        self._program: Program
        self.known: Known
        self._stopping = False
        self._looked = 0.0
        self._at_once = MOST_LINES
        self._one_by_one = 0

    async def start(self) -> None:
        """Starts the program from the log. Raises SessionRefused, ProgramEnded and OSError."""
        self._program, self.known = await self._runner.start()

    async def run(self) -> None:
        """Carries lines out until `stop` is called, and then refuses those that wait.

        Raises SessionRefused and LogUnsure: without a log, or a program that takes it, nothing can go on.
        """
        while not self._stopping:
            most = 1 if self._one_by_one else self._at_once
            items = [item for item in await self._turns.take(most) if self._is_due(item)]
            await self._look_after()
            if items and items[0].kind is Kind.IMPORT:
                await self._import(items[0])
            elif items and items[0].kind is Kind.PLANE:
                await self._take_plane(items[0])
            elif items:
                await self._carry_out(self._lifted(items))
        self._roller.stop()
        self.refuse_waiting()
        await self.committer.drained()

    def stop(self) -> None:
        """Ends `run` after the lines that are being carried out."""
        self._stopping = True
        self._turns.wake()

    def refuse_waiting(self) -> None:
        """Refuses the lines that wait, since the server ends."""
        for item in self._turns.take_all():
            self.committer.put(Done(item, block=b"" if item.kind is Kind.PLANE else Refusal.STOPPING.reply()))

    async def close(self) -> None:
        """Ends the program."""
        await self._program.close()

    def _is_due(self, item: Item) -> bool:
        """Gives the clock's line its ticks; it isn't carried out where there are none."""
        if isinstance(item.source, Clock):
            item.text = item.source.line()
        return bool(item.text)

    def _lifted(self, items: list[Item]) -> list[Item]:
        """The lines up to the first whose number is that of one that isn't answered yet; the others wait again."""
        for i, item in enumerate(items):
            if not self._decisions.lift(item):
                self._turns.put_back(items[i:])
                return items[:i]
        return items

    async def _carry_out(self, items: list[Item]) -> None:
        """Carries lines out, and puts what comes of each to the committer."""
        if not items:
            await self.committer.drained()
            return
        plan = deque((item, self._decisions.decided(item)) for item in items)
        lines = [item.text for item, done in plan if done is None]
        self._one_by_one = max(0, self._one_by_one - 1)
        self._put_decided(plan)
        # What a writer has accepted is to be carried out, however long it takes here.
        patience = None if len(items) == 1 and items[0].record is not None else self._patience
        begun = asyncio.get_running_loop().time()
        try:
            async for answer in self._program.answers(lines, patience):
                item, _ = plan.popleft()
                self._put_answered(item, answer)
                self._put_decided(plan)
        except (OutOfPatience, ProgramEnded) as fault:
            await self._go_on_after(fault, [item for item, _ in plan])
        else:
            self._learn(asyncio.get_running_loop().time() - begun)

    def _learn(self, seconds: float) -> None:
        """Sends fewer lines at once after some that took long, and more after quick ones."""
        self._at_once = max(1, self._at_once // 2) if seconds > _SOON_SECONDS else min(MOST_LINES, self._at_once * 2)

    def _put_answered(self, item: Item, answer: Answer) -> None:
        """Puts a line that the program has answered."""
        self.committer.put(Done(item, answer, record=_record(item, answer)))
        if answer.last == _JOURNAL_FULL:
            self._roller.hurry()

    def _put_decided(self, plan: deque[tuple[Item, Done | None]]) -> None:
        """Puts the lines at the front of the plan that the server answers by itself."""
        while plan and (done := plan[0][1]) is not None:
            plan.popleft()
            self.committer.put(done)

    async def _go_on_after(self, fault: OutOfPatience | ProgramEnded, items: list[Item]) -> None:
        """Goes on after the program has ended, or was too slow, with lines that have no reply.

        Of several lines it isn't known which it was: the program writes the replies to lines that it has read together
        only when it has carried out all of them. So they are tried one by one. Where a signal has ended it, a line
        alone is tried some times more too: it may not be what the signal was for.
        """
        _LOGGER.warning("%s", fault)
        if len(items) == 1:
            items[0].tries += 1
            is_signal = isinstance(fault, ProgramEnded) and fault.status < 0
            if not is_signal or items[0].tries == _MOST_TRIES:
                is_slow = isinstance(fault, OutOfPatience)
                await self._go_on_without(items[0], Refusal.OUT_OF_PATIENCE if is_slow else Refusal.PROGRAM_ENDED)
                return
        self._one_by_one = len(items)
        for item in items:
            self._decisions.land(item)
        self._turns.put_back(items)
        await self._restart()

    async def _go_on_without(self, item: Item, refusal: Refusal) -> None:
        """Refuses a line, and starts the program anew."""
        _LOGGER.warning("not carried out, %s: %s", refusal.name, item.text[:200].decode("ascii", "replace"))
        self.committer.put(Done(item, block=refusal.reply()))
        await self._restart()

    async def _settle(self) -> None:
        """Waits until all that was answered is in the log, so that the program holds nothing else."""
        await self.committer.drained()
        if self.committer.fault is not None:
            await self._restart()

    async def _restart(self) -> None:
        """Starts the program anew from the log, when all that was answered is in it."""
        await self.committer.drained()
        await self._program.kill()
        if self.committer.fault is not None:
            _LOGGER.error("%s", self.committer.fault)
            self._decisions.log_is_full = True
            self.committer.mend()
        self._program, self.known = await self._runner.start_again()
        _LOGGER.warning("the program was started anew from the log, at tick %d", self.known.clock)

    async def _look_after(self) -> None:
        """Sees before lines are carried out that the program and the log are fit for them."""
        ends_soon = self._program.bytes_sent > INPUT_LIMIT - _INPUT_RESERVE
        if self.committer.fault is not None or self._program.has_ended or ends_soon:
            await self._restart()
        await self._look_at_room()
        self._roller.look()
        if self._roller.must_wait:
            await self._roller.wait()
        if self._roller.is_ready:
            await self._roll()
        if self._renewal.is_due:
            await self._renew()

    async def _look_at_room(self) -> None:
        """Looks whether a log that couldn't be written has room again, not too often."""
        now = asyncio.get_running_loop().time()
        if self._decisions.log_is_full and now >= self._looked + _LOOK_SECONDS:
            self._looked = now
            await self._settle()
            self._decisions.log_is_full = not await self._thread.run(self._log.has_room)

    async def _take_plane(self, item: Item) -> None:
        """Keeps the plane that a comment names, where the log names none yet, and tells which one it is."""
        await self._settle()
        is_kept = not (self._log.plane or self._decisions.log_is_full or self._decisions.only_reads)
        self.committer.put(Done(item, block=self._told_plane, record=Record(None, plane=item.text) if is_kept else None))

    def _told_plane(self) -> bytes:
        return told("plane", plane_in([self._log.plane]) or "none")

    async def _import(self, item: Item) -> None:
        """Carries an import out. Its rows stand in no line, so a new log begins from what the program then saves."""
        await self._settle()
        done = self._decisions.decided(item)
        if done is not None:
            self.committer.put(done)
            return
        try:
            answer = await self._program.answer(item.text, self._patience)
        except (OutOfPatience, ProgramEnded) as fault:
            await self._go_on_after(fault, [item])
        else:
            await self._put_import(item, answer)

    async def _put_import(self, item: Item, answer: Answer) -> None:
        """Puts an import that the program has answered, when a new log has begun with it."""
        if not answer.is_ok:
            self._put_answered(item, answer)
            return
        try:
            await self._renewal.renew(self._program, imported=[item.number] if item.number is not None else [])
        except (OSError, ProgramEnded) as fault:
            _LOGGER.error("a new log can't be begun: %s", fault)
            if isinstance(fault, ProgramEnded) and fault.status < 0:
                await self._go_on_after(fault, [item])
            else:
                self._decisions.log_is_full = True
                await self._go_on_without(item, Refusal.LOG_FULL)
        else:
            self.committer.put(Done(item, answer))

    async def _renew(self) -> None:
        """Begins a new log where the old one has grown long."""
        await self._settle()
        try:
            await self._renewal.renew(self._program)
        except (OSError, ProgramEnded) as fault:
            _LOGGER.error("a new log can't be begun: %s", fault)
            self._renewal.put_off()
            if isinstance(fault, ProgramEnded):
                await self._restart()
        else:
            self._hub.grow(self._log)

    async def _roll(self) -> None:
        """Goes on from a rolled log where there is one, and tells all clients what was lost."""
        await self._settle()
        taken = await self._roller.take_over(self.known.clock)
        if taken is None:
            return
        await self._program.kill()
        self._program, self.known, rolled = taken
        self._hub.grow(self._log)
        for line in rolled.lines():
            _LOGGER.info("rolled: %s", line)
        self._hub.tell_all(told("rolled", line) for line in rolled.lines())

    def _pass_on(self, done: Done) -> None:
        """Passes a reply on, and what it changes to those who follow."""
        item, answer = done.item, done.answer
        self._decisions.land(item)
        self._hub.grow(self._log)
        if answer is None:
            item.source.reply(done.block() if callable(done.block) else done.block)
            return
        item.source.reply(answer.block)
        if answer.is_ok and item.kind in (Kind.KEPT, Kind.IMPORT):
            self._hub.push(self.known.take(item.text, answer), but=item.source)
            self._hub.accepted(item.text)

    def _refuse_unkept(self, item: Item) -> None:
        """Refuses a line that the log couldn't keep, or whose reply may rest on one."""
        self._decisions.land(item)
        item.source.reply(Refusal.LOG_FULL.reply())


def _record(item: Item, answer: Answer) -> Record | None:
    """What the log keeps of a line: an accepted command, and the outcome of a number."""
    if item.record is not None:
        return item.record if answer.is_ok else None
    if item.kind is Kind.KEPT and answer.is_ok:
        return Record(item.text.strip(b" \t"), item.number)
    if item.kind in (Kind.KEPT, Kind.IMPORT) and item.number is not None:
        return Record(None, item.number, answer.refusal)
    return None
