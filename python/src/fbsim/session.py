"""Sessions: runs that go on by calls, in which your code plays the plant."""

from __future__ import annotations

import os
import select
import shlex
import subprocess
import time
import weakref
from collections import deque
from collections.abc import Iterator, Mapping, Sequence
from contextlib import contextmanager, suppress
from types import TracebackType
from typing import IO, TYPE_CHECKING

from fbsim.faults import (
    Fault, FileFault, InputFault, Location, ProgramFault, Refused, Stop, Stopped, TimedOut, encoded, fault_of, of_system
)
from fbsim.program import begun, kill, seconds
from fbsim.stimuli import (
    MOST_BYTES, MOST_ROWS, FileName, Row, Stimuli, Value, file_name, made_folder, rows_of, stimuli_text, warn_of,
    words_of
)
from fbsim.texts import temporary_file, whole, write, write_script
from fbsim.trace import Line, Lines, Trace, ending, lines_of, temporary

if TYPE_CHECKING:
    from fbsim.application import Application

ANSWERS = ("= ", "! ", "stop ", "end ")


def leave(process: subprocess.Popen[bytes], said: IO[bytes], owner: int) -> None:
    """Ends the program of a session, and closes what leads to it."""
    kill(process, owner)
    for it in (process.stdin, process.stdout, said):
        try:
            it and it.close()
        except BrokenPipeError:  # (what was not sent, nobody reads any more)
            pass


class Talk:
    """The program of a session: commands go to it, and lines come from it."""

    def __init__(self, words: Sequence[str], timeout: float | None) -> None:
        self.timeout, self.lines, self.rest = seconds(timeout), deque[bytes](), b""
        self.said = temporary_file()
        pipes = {"stdin": subprocess.PIPE, "stdout": subprocess.PIPE, "stderr": self.said}
        try:
            self.process = begun(words, **pipes)
        except BaseException:
            self.said.close()
            raise
        self.leave = weakref.finalize(self, leave, self.process, self.said, os.getpid())

    def send(self, command: str) -> None:
        """Sends a command. If the program has ended, its output says so."""
        assert self.process.stdin
        try:
            self.process.stdin.write(encoded(command) + b"\n")
            self.process.stdin.flush()
        except BrokenPipeError:
            pass

    def limit(self) -> float | None:
        """Returns when an answer to what is sent now comes too late."""
        return None if self.timeout is None else time.monotonic() + self.timeout

    def line(self, limit: float | None) -> str | None:
        """Returns the next line, or None at the end of the output."""
        assert self.process.stdout
        number = self.process.stdout.fileno()
        while not self.lines:
            if limit is not None:
                ready = select.poll()
                ready.register(number, select.POLLIN)
                if not ready.poll(max(0.0, limit - time.monotonic()) * 1000):
                    raise TimedOut(f"the session did not answer within {self.timeout:g} seconds, and was ended")
            part = os.read(number, 65536)
            if not part:
                return None
            *lines, self.rest = (self.rest + part).split(b"\n")
            self.lines.extend(lines)
        return self.lines.popleft().decode("utf-8", "replace")

    def ended(self) -> tuple[int, str]:
        """Waits for the end of the program, and returns its status and what it said on standard error."""
        try:
            status = self.process.wait(self.timeout)
        except subprocess.TimeoutExpired:
            raise TimedOut(f"the session did not end within {self.timeout:g} seconds, and was ended") from None
        self.said.seek(0)
        said = self.said.read().decode("utf-8", "replace").strip()
        self.leave()
        return status, said


class Session(Lines):
    """A run that goes on by calls: `with app.session() as s: s.give(..); s.until(..); s.show("GATE")`.

    `rows` are the stimuli that it took, `answer` is the last answer, as `at 800`, and `stop` is why it stopped. Its own
    lines are those so far: `s.where("* < GATE.LIFT").count()`. It ends by `ask("end 800")`, or by `close` at its least
    tick, as its `with` does. Then `end` is its horizon, `trace` its trace, and each further call an InputFault. If it
    has stopped, its end raises `Stopped`, unless `stop` is true; a `StimuliWarning` counts the rows that it did not
    take. An exception in the body of `with` breaks it off, and is passed on.
    """

    application: Application

    def __init__(
        self, application: Application, stimuli: Stimuli = None, *, steps: int | None = None, stop: bool = False,
        timeout: float | None = None
    ) -> None:
        self.application, self.may_stop = application, stop
        self.rows: list[Row] = []
        self.answer, self.is_broken_off = "", False
        self.end: int | None = None
        self.stop: Stop | None = None
        self._options = [] if steps is None else ["--steps", str(whole(steps, "steps"))]
        words, file = ["session", *application.words, *self._options], None
        if isinstance(stimuli, (str, os.PathLike)):
            file, stimuli = file_name(stimuli, "stimuli"), ()
            words += ["--stim", file]
        self._talk: Talk | None = Talk(words, timeout)
        self._trace, self._file = temporary(application)
        weakref.finalize(self, self._file.close)
        try:
            self.ask("peek")  # (the rows of a file come before the answer)
            for row in rows_of(() if stimuli is None else stimuli):
                self.give(*row)
        except BaseException as it:
            self._break_off()
            if isinstance(it, (Refused, FileFault)):
                application.check(file)  # (it says where)
            raise

    def __repr__(self) -> str:
        ended = f"end {self.end}" if self.stop is None else f"stop {self.stop.tick} {self.stop.resource}"
        state = "goes on" if self._talk else "broken off" if self.is_broken_off else ended
        return f"<session of {os.fspath(self.application.declaration)}, rows: {len(self.rows)}, {state}>"

    def __enter__(self) -> Session:
        return self

    def __exit__(self, kind: type[BaseException] | None, _: object, __: TracebackType | None) -> None:
        if kind is None:
            self._end()
        else:
            self._break_off()

    def __iter__(self) -> Iterator[Line]:
        """Goes over the lines so far."""
        if not self._file.closed:
            self._file.flush()
        with open(self._trace.path, encoding="ascii", errors="replace", newline="\n") as texts:
            yield from lines_of(texts, is_whole=False)

    @property
    def trace(self) -> Trace:
        """The trace of the session, when it has ended: that of a run with its rows."""
        if self._talk is not None or self.is_broken_off:
            state = "was broken off" if self.is_broken_off else 'goes on: end it by ask("end TICK") or close()'
            raise InputFault(f"there is no trace: the session {state}")
        return self._trace

    def ask(self, command: str) -> list[Line]:
        """Sends any command, as `next` or `break * < BEAT.EO`, and returns the lines that it gives."""
        if not isinstance(command, str) or "\n" in command or "\r" in command:
            raise InputFault(f"{command!r} is no command: it is a text of one line")
        encoded(command)
        if self._talk is None:
            state = "was broken off" if self.is_broken_off else "has ended"
            raise InputFault(f"the session {state}: {command!r} comes too late")
        name, _, rest = command.strip(" ").partition(" ")
        if name == "break" and rest:
            self.pattern_of(rest)
        with self._broken_off_by_faults():
            self._talk.send(command)
            texts, answers = self._answers(name, self._talk)
            self.answer = "\n".join(it.removeprefix("= ") for it in answers)
            if name == "end" and not answers[-1].startswith("! "):
                self._finish(self._talk, 4)
        if self.answer.startswith("! E"):
            raise Refused(self.answer[2:5], [Location(None, None, None, self.answer[7:])])
        if self.answer.startswith("! "):
            is_over = self.stop is not None and self.answer == "! the run has stopped"
            raise Stopped(self.stop, self) if self.stop and is_over else InputFault(self.answer[2:])
        return list(lines_of((f"{it}\n" for it in texts), is_whole=False))

    def give(self, tick: int, event: str, values: Mapping[str, Value] = {}) -> None:
        """Gives a stimulus at a tick that has not begun: `give(100, "PROBE.PLANT", {"RAW": 2432})`."""
        self.ask(f"give {whole(tick, 'tick')} {event} {words_of(values)}".rstrip(" "))

    def until(self, tick: int) -> list[Line]:
        """Takes all events below a tick, or up to a break or a stop, and returns their lines."""
        return self.ask(f"until {whole(tick, 'tick')}")

    def show(self, path: str) -> dict[str, Value]:
        """Returns the values of the variables of a block. What else it has, as its state, is in the answer."""
        self.ask(f"show {path}")
        return Line(0, "", "", "", "", " ".join(it for it in self.answer.split() if "=" in it)).values

    def close(self) -> None:
        """Ends the session at its least tick, unless it has ended."""
        self._end()

    def save(self, folder: FileName) -> str:
        """Writes an ended session into a folder, as a case: its trace, its rows, and run.sh. Returns the command.

        The command prints the trace again. It is `run` with stimuli.csv; if these are more rows than `run` takes, it is
        `session` with commands.
        """
        path, trace = made_folder(folder), self.trace
        trace.save(path / "trace")
        horizon = self.end if self.stop is None else self.stop.tick + 1
        text, words = stimuli_text(self.rows, is_limited=False), [*self.application.words_from(path), *self._options]
        if len(self.rows) <= MOST_ROWS and len(text) <= MOST_BYTES:
            write(path / "stimuli.csv", text)
            words = ["fbsim", "run", *words, "--stim", "stimuli.csv", "--horizon", str(horizon)]
            return write_script(path, "a session", shlex.join(words))
        with open(path / "commands", "w", encoding="ascii") as to:
            for tick, event, values in rows_of(self.rows):
                to.write(f"give {tick} {event} {words_of(values)}\n")
            to.write(f"end {horizon}\n")
        line = shlex.join(["fbsim", "session", *words]) + " < commands | grep -v '^[=!]'"
        return write_script(path, "a session", line)

    def _answers(self, name: str, talk: Talk) -> tuple[list[str], list[str]]:
        """Reads what comes after a command: lines of the trace, and its answer, which has several lines for `help`."""
        texts: list[str] = []
        answers: list[str] = []
        limit = talk.limit()
        while (text := talk.line(limit)) is not None:
            self._take(text)
            if not text.startswith(ANSWERS):
                texts.append(text)
            elif name == "give" or not text.startswith("= row "):
                answers.append(text)
                if name != "help" or text.startswith(("= help: ", "! ")):
                    return texts, answers
        raise self._fault(*talk.ended())

    def _take(self, text: str) -> None:
        """Keeps a row, or a line of the trace, which may be its last one."""
        if text.startswith("= row "):
            tick, event, words = text.split(" ", 3)[3].split(",")
            self.rows.append((int(tick), event, Line(0, "", "", "", "", words).values))
        elif not text.startswith(("= ", "! ")):
            self._file.write(text.encode("ascii", "replace") + b"\n")
            if text.startswith(ANSWERS):
                self.end, self.stop = ending(text)

    def _fault(self, status: int, said: str) -> Fault:
        """Returns why the program ended too early."""
        ended = f"the program ended with status {status} and without its answer"
        return ProgramFault(said and f"{ended}: {said}" or ended) if status in (0, 1) else fault_of(status, said)

    @contextmanager
    def _broken_off_by_faults(self) -> Iterator[None]:
        """Breaks the session off if the body raises an exception, and raises a fault for one of the system."""
        try:
            yield
        except BaseException as it:
            # (an answer that is not read to its end would be taken for that of the next command)
            self._break_off()
            if isinstance(it, OSError) and not isinstance(it, Fault):
                raise of_system(it, str(self._trace.path)) from it
            raise

    def _end(self) -> None:
        """Ends the session, as `close` does."""
        if self._talk is not None:
            with self._broken_off_by_faults():
                assert self._talk.process.stdin
                self._talk.process.stdin.close()
                self._finish(self._talk, 5)

    def _finish(self, talk: Talk, level: int) -> None:
        """Reads what comes up to the end of the program, and says how it ended. Its caller is so many calls above."""
        limit = talk.limit()
        while (text := talk.line(limit)) is not None:
            self._take(text)
        status, said = talk.ended()
        if status not in (0, 1) or self.end is None and self.stop is None:
            raise self._fault(status, said)
        self._talk = None
        self._file.close()
        untaken = [it for it in self.rows if self.end is not None and it[0] >= self.end]
        if untaken:
            what = f"stimuli: rows at or beyond the end {self.end}: {len(untaken)} of {len(self.rows)}"
            warn_of([f"{what}; the session did not take them"], level)
        if self.stop and not self.may_stop:
            raise Stopped(self.stop, self._trace)

    def _break_off(self) -> None:
        """Ends the program at once, unless the session has ended."""
        if self._talk is not None:
            self._talk.leave()
            self._talk, self.is_broken_off = None, True
            with suppress(OSError):  # (the disk is full)
                self._file.close()
