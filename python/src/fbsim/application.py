"""Applications, and runs of them."""

from __future__ import annotations

import os
import subprocess
from collections.abc import Generator, Iterable, Iterator, Mapping, Sequence
from dataclasses import dataclass
from pathlib import Path
from typing import IO, TYPE_CHECKING, Any, Literal

from fbsim.faults import Fault, InputFault, Stop, Stopped, encoded, fault_of, needs, texts_of
from fbsim.program import call, started
from fbsim.session import Session
from fbsim.stimuli import FileName, Stimuli, file_name, stimuli_text, warn_of
from fbsim.texts import temporary_file, whole
from fbsim.trace import Line, Lines, Trace, ending, lines_of, parts_of, temporary

if TYPE_CHECKING:
    from concurrent.futures import Executor

    from fbsim.sweep import Between, Sweep
    from fbsim.variant import Variant


@dataclass(frozen=True)
class Application:
    """An application: its declaration, the files of its block types, and its deployment."""

    declaration: FileName
    types: Sequence[FileName] = ()
    deploy: FileName | None = None

    def __post_init__(self) -> None:
        types = [self.types] if isinstance(self.types, (str, os.PathLike)) else self.types
        needs(types, Iterable, "a list of files of types")
        for it, what in [(self.declaration, "a declaration"), *((it, "a file of types") for it in types)]:
            file_name(it, what)
        if self.deploy is not None:
            file_name(self.deploy, "a deployment")
        object.__setattr__(self, "types", tuple(types))

    @property
    def words(self) -> list[str]:
        """The application as words of the command line."""
        words = [os.fspath(self.declaration)]
        for it in self.types:
            words += ["--types", os.fspath(it)]
        return words if self.deploy is None else [*words, "--deploy", os.fspath(self.deploy)]

    def words_from(self, folder: Path) -> list[str]:
        """The application as words of a command line in another folder."""
        def there(file: FileName) -> str:
            return os.path.relpath(file, folder)

        deploy = None if self.deploy is None else there(self.deploy)
        return Application(there(self.declaration), [there(it) for it in self.types], deploy).words

    def call_words(self, command: str, stimuli: Stimuli, options: Mapping[str, int | None]) -> tuple[list[str], str]:
        """Returns the words of a call and its standard input, which has stimuli that are given as rows."""
        words, given = [command, *self.words, "--why"], ""
        if isinstance(stimuli, (str, os.PathLike)):
            words += ["--stim", file_name(stimuli, "stimuli")]
        elif stimuli is not None:
            words, given = [*words, "--stim", "-"], stimuli_text(stimuli)
        for option, number in options.items():
            words += [] if number is None else [f"--{option}", str(whole(number, option))]
        return words, given

    def check(self, stimuli: Stimuli = None) -> None:
        """Raises `Refused` if the program does not accept the application, or stimuli of it."""
        call(*self.call_words("check", stimuli, {}))

    def run(
        self, stimuli: Stimuli = None, *, horizon: int, steps: int | None = None, workers: int | None = None,
        stop: bool = False, keys: bool = False, timeout: float | None = None
    ) -> Trace:
        """Runs the application to its end, and returns the trace, whose lines wait in a temporary file.

        `stimuli` is a file, or rows (tick, INSTANCE.EVENT, {VARIABLE: value}). A run that stops before the horizon
        raises `Stopped`, unless `stop` is true. With `keys` the trace has form 2. A run that takes longer than
        `timeout` seconds is ended, and `TimedOut` raised. A `StimuliWarning` counts the rows that the run did not take.
        """
        options = {"horizon": horizon, "steps": steps, "workers": workers, "trace": 2 if keys else None}
        words, given = self.call_words("run", stimuli, options)
        trace, file = temporary(self)
        trace.steps = steps
        with file as to:
            trace.take(call(words, given, to, statuses=(0, 1), timeout=timeout), horizon)
        warn_of(trace.warnings, 3)
        if trace.stop and not stop:
            raise Stopped(trace.stop, trace)
        return trace

    def stream(
        self, stimuli: Stimuli = None, *, horizon: int, steps: int | None = None, workers: int | None = None,
        stop: bool = False, keys: bool = False
    ) -> Stream:
        """Runs the application, and returns its lines as they come, to be read once. Reading them raises its faults."""
        options = {"horizon": horizon, "steps": steps, "workers": workers, "trace": 2 if keys else None}
        return Stream(*self.call_words("run", stimuli, options), stop, self, horizon)

    def coverage(self, *traces: Trace, least: int | None = None) -> str:
        """Returns the report of `fbsim coverage` on traces. Below `least` percent it is raised as a `Fault`."""
        for it in traces or [None]:
            needs(it, Trace, "a trace, and there is at least one")
        words = ["coverage", *self.words, *(os.fspath(it.path) for it in traces), "--why"]
        made = call(words + ([] if least is None else ["--least", str(whole(least, "least"))]), statuses=(0, 1))
        if made.returncode:
            raise Fault(f"less than {least} percent are covered:\n{made.stdout.rstrip()}")
        return made.stdout

    def lint(self, stimuli: Stimuli = None, *, allow: Sequence[str] = (), deny: Sequence[str] = ()) -> str:
        """Returns the warnings of `check --lint`. One that is denied, as `all` or `L04:GATE`, is raised as `Fault`."""
        words, given = self.call_words("check", stimuli, {})
        given_lints = (("allow", allow), ("deny", deny))
        options = [f"--{key}={it}" for key, them in given_lints for it in texts_of(them, "lints")]
        made = call([*words, "--lint", *options], given, statuses=(0, 1))
        if made.returncode:
            raise Fault(made.stderr.rstrip())
        return made.stderr

    def inspect(self, trace: Trace, *, only: str | None = None, lost: bool = False) -> str:
        """Returns what `fbsim inspect` says of the inside of a trace: of an instance, or of lost events alone."""
        needs(trace, Trace, "a trace")
        needs("" if only is None else only, str, "the name of an instance")
        words = ["inspect", *self.words, os.fspath(trace.path), "--why"]
        return call(words + ([] if only is None else ["--only", only]) + ["--lost"] * lost).stdout

    def session(
        self, stimuli: Stimuli = None, *, steps: int | None = None, stop: bool = False, timeout: float | None = None
    ) -> Session:
        """Starts a run that goes on by calls, as `Session` says. An answer may take `timeout` seconds."""
        return Session(self, stimuli, steps=steps, stop=stop, timeout=timeout)

    def sweep(
        self, parameters: Mapping[str, Iterable[object]], stimuli: Stimuli = None, *, horizon: int,
        steps: int | None = None, rules: FileName | None = None, latencies: Mapping[str, Between] = {},
        executor: Executor | None = None, sample: int | None = None, seed: int = 0, stops: bool = False,
        on_error: Literal["raise", "keep"] = "raise", cache: FileName | None = None, timeout: float | None = None
    ) -> Sweep:
        """Runs a variant of the application for each combination of values, and judges its trace.

        Parameters are `link.A->B` (a latency, a table of latencies, or `jitter`), `INSTANCE.PARAMETER`,
        `stimuli[3].tick`, `stimuli[3].VARIABLE`, `horizon` and `steps`. With `sample`, only so many combinations are
        run, drawn with the seed. Any executor runs them: by default, processes of this machine.

        A variant that stops is among `broken()`, unless `stops` is true. With `on_error="keep"` a fault is that of its
        variant, and does not end the sweep. `cache` names a folder: what is there is not run again. Each run may take
        `timeout` seconds.
        """
        from fbsim.sweep import Sweep, planned, variants

        plan, chosen = planned(
            self, parameters, stimuli, horizon, steps, rules, latencies, sample, seed, stops, on_error, timeout
        )
        return Sweep(plan, variants(plan, chosen, executor, cache))

    def variants(
        self, parameters: Mapping[str, Iterable[object]], stimuli: Stimuli = None, *, horizon: int,
        steps: int | None = None, rules: FileName | None = None, latencies: Mapping[str, Between] = {},
        executor: Executor | None = None, sample: int | None = None, seed: int = 0,
        on_error: Literal["raise", "keep"] = "raise", cache: FileName | None = None, timeout: float | None = None
    ) -> Iterator[Variant]:
        """Does what `sweep` does, and goes over the variants as they come, in any order."""
        from fbsim.sweep import planned, variants

        plan, chosen = planned(
            self, parameters, stimuli, horizon, steps, rules, latencies, sample, seed, True, on_error, timeout
        )
        return variants(plan, chosen, executor, cache)


class Stream(Lines):
    """The lines of a run, read from its pipe while it runs. `end` and `stop` are known when all have been read: before
    that they are an InputFault."""

    def __init__(
        self, words: Sequence[str], given: str, may_stop: bool, application: Application, horizon: int
    ) -> None:
        self.words, self.given, self.may_stop = words, given, may_stop
        self.application, self.horizon = application, horizon
        self.ended: tuple[int | None, Stop | None] | None = None
        self.was_read = False

    def __repr__(self) -> str:
        state = "read" if self.ended else "not read to its end"
        return f"<stream of {' '.join(self.words)}, {state}>"

    def how_it_ended(self) -> tuple[int | None, Stop | None]:
        """Returns the horizon or the stop."""
        if self.ended is None:
            raise InputFault("nobody knows how the run ends: the lines of the stream are not read to their end")
        return self.ended

    @property
    def end(self) -> int | None:
        """The horizon, or None if the run stopped before it."""
        return self.how_it_ended()[0]

    @property
    def stop(self) -> Stop | None:
        """Why the run stopped before its horizon, or None."""
        return self.how_it_ended()[1]

    def __iter__(self) -> Iterator[Line]:
        if self.was_read:
            raise InputFault("the lines of a stream are read once: use run, whose trace is read any number of times")
        self.was_read = True
        with temporary_file(encoded(self.given)) as given, temporary_file() as said:
            last, text, status = yield from self.lines(given, said)
        (end, stop), (untaken, where) = ending(last, status, self.horizon), parts_of(text)
        self.ended = end, stop and stop._replace(where=where)
        warn_of(untaken, 3)
        if self.stop and not self.may_stop:
            raise Stopped(self.stop)

    def lines(self, given: IO[bytes], said: IO[bytes]) -> Generator[Line, None, tuple[str, str, int]]:
        """Goes over the lines, and returns the last line, what the program said and its status, or raises its fault."""
        how: dict[str, Any] = {"stderr": said, "encoding": "ascii", "errors": "replace"}
        with started(self.words, stdin=given, stdout=subprocess.PIPE, **how) as run:
            fault = last = None
            try:
                last = yield from lines_of(iter(run.stdout or ()))
            except InputFault as it:
                fault = it
            status = run.wait()
        said.seek(0)
        text = said.read().decode("utf-8", "replace")
        if status not in (0, 1):
            raise fault_of(status, text)
        if fault is not None or last is None:
            raise fault or InputFault("there are no lines")
        return last, text, status
