"""Sweeps: an application in many variants of its latencies, parameters and stimuli. Each variant is an ordinary run."""

from __future__ import annotations

import math
import os
import random
import re
import shlex
import sys
import warnings
from collections.abc import Callable, Iterable, Iterator, Mapping, Sequence
from concurrent.futures import Executor, Future, ProcessPoolExecutor, as_completed
from concurrent.futures.process import BrokenProcessPool
from dataclasses import dataclass
from pathlib import Path
from typing import TYPE_CHECKING, Literal, NamedTuple

from fbsim import figures
from fbsim.application import Application
from fbsim.cache import Cache
from fbsim.faults import Fault, InputFault, needs, texts_of
from fbsim.patterns import Pattern, ask_pair, ask_patterns
from fbsim.program import call, seconds
from fbsim.stimuli import FileName, Stimuli, made_folder, stimuli_text, warn_of
from fbsim.texts import (
    read, temporary_folder, whole, with_latency, with_parameter, with_stimulus, write, write_script
)
from fbsim.trace import Report, Trace, check_rules, temporary
from fbsim.variant import Variant

if TYPE_CHECKING:
    from matplotlib.figure import Figure
    from pandas import DataFrame

# The names of parameters, the file that each changes, and how.
PLACES: list[tuple[str, str, Callable[..., str]]] = [
    (r"link\.(\w+)->(\w+)", "deploy.toml", with_latency),
    (r"stimuli\[(\d+)\]\.(\w+)", "stimuli.csv", with_stimulus),
    (r"(\w+)\.(\w+)", "application.iec", with_parameter),
]
# A place in the product of all values, and the values there.
Chosen = tuple[int, tuple[object, ...]]
# Two patterns, and how their lines are paired (`Lines.latencies`).
Between = tuple[str, str] | tuple[str, str, str]


@dataclass(frozen=True)
class Jitter:
    """Latencies between two bounds that change at so many ticks of a run. The same seed gives the same table."""

    least: int
    most: int
    changes: int = 8
    seed: int = 0

    def __post_init__(self) -> None:
        for name, it in vars(self).items():
            whole(it, f"jitter: {name}")
        if not 1 <= self.least <= self.most <= 1_000_000 or not 0 <= self.changes <= 63:
            raise InputFault("jitter: latencies are within 1 to 1,000,000, and there are at most 63 changes")

    def table(self, horizon: int) -> list[tuple[int, int]]:
        """Returns the table of latencies of a link for a run: pairs of a tick and the latency from it on."""
        chance, later = random.Random(self.seed), range(1, whole(horizon, "horizon"))
        ticks = sorted(chance.sample(later, min(self.changes, len(later))))
        return [(tick, chance.randint(self.least, self.most)) for tick in [0, *ticks]]


jitter = Jitter


class RuleWarning(UserWarning):
    """Rules that applied in no variant of a sweep."""


class Plan(NamedTuple):
    """What all variants have in common: the texts of all files, and what is wanted of each run."""

    files: dict[str, str]
    types: list[str]
    horizon: int
    steps: int | None
    latencies: dict[str, Between]
    names: tuple[str, ...]
    rules: tuple[str, ...] = ()
    timeout: float | None = None
    keeps_faults: bool = False
    may_stop: bool = False

    def variant(self, values: Sequence[object]) -> Plan:
        """Returns the plan with these values of its parameters."""
        files, options = dict(self.files), {"horizon": self.horizon, "steps": self.steps}
        changed = dict(zip(self.names, values))
        options |= {it: whole(changed.pop(it), it) for it in ("horizon", "steps") if it in changed}
        for name, value in changed.items():
            table = value.table(int(options["horizon"] or 0)) if isinstance(value, Jitter) else value
            file, change, place = place_of(name)
            if file not in files:
                raise InputFault(f"{name}: the application has no {file}")
            files[file] = change(files[file], *place, table)
        return self._replace(files=files, **options)  # type: ignore[arg-type]

    def words(self) -> list[str]:
        """Returns the words of a run, in a folder with the files."""
        deploy, stimuli = (it if it in self.files else None for it in ("deploy.toml", "stimuli.csv"))
        application = Application("application.iec", self.types, deploy)
        return application.call_words("run", stimuli, {"horizon": self.horizon, "steps": self.steps})[0]


def place_of(name: str) -> tuple[str, Callable[..., str], tuple[str, ...]]:
    """Returns the file that a parameter of a sweep changes, the change, and its place."""
    for pattern, file, change in PLACES:
        if place := re.fullmatch(pattern, name):
            return file, change, place.groups()
    what = "these are link.A->B, stimuli[3].tick, INSTANCE.PARAMETER, horizon and steps"
    raise InputFault(f"{name} is no parameter: {what}")


def plain(value: object) -> object:
    """Returns a value as Python has it, also if it is of numpy."""
    if hasattr(value, "tolist"):
        return plain(value.tolist())
    return [plain(it) for it in value] if isinstance(value, (list, tuple)) else value


def values_of(name: str, given: Iterable[object]) -> list[object]:
    """Returns the values of a parameter."""
    if isinstance(given, (str, bytes, Mapping)) or not isinstance(given, Iterable):
        raise InputFault(f"{name}: its values are a list, and not {given!r}")
    return [plain(it) for it in given]


def said(parameters: Mapping[str, object]) -> str:
    """Returns parameters as a text."""
    return ", ".join(f"{name} = {it}" for name, it in parameters.items())


def run_batch(plan: Plan, batch: Sequence[Chosen]) -> list[Variant]:
    """Runs variants one after another, in files of a temporary folder, up to the first fault unless they are kept."""
    made: list[Variant] = []
    with temporary_folder() as folder:
        kept = dict[str, str]()
        for number, values in batch:
            parameters = dict(zip(plan.names, values))
            try:
                variant = plan.variant(values)
                for file, text in variant.files.items():
                    if kept.get(file) != text:
                        write(folder / file, text)
                kept = variant.files
                made.append(run_variant(variant, folder, number, parameters))
            except Exception as it:
                it.add_note(f"variant {number}: {said(parameters)}")
                if not isinstance(it, Fault):
                    raise
                made.append(Variant(number, parameters, None, None, Report(()), {}, it.with_traceback(None)))
                if not plan.keeps_faults:
                    break
    return made


def run_variant(variant: Plan, folder: Path, number: int, parameters: dict[str, object]) -> Variant:
    """Runs a variant whose files are in a folder, and judges its trace. Messages name files as that folder has them."""
    trace, file = temporary(None)
    with file as to:
        trace.take(call(variant.words(), "", to, (0, 1), variant.timeout, folder), variant.horizon)
    report = check_rules(trace, "rules", folder=folder) if "rules" in variant.files else Report(())
    latencies = {name: trace.latencies(*it) for name, it in variant.latencies.items()}
    return Variant(number, parameters, trace.end, trace.stop, report, latencies, None, trace.warnings)


class Sweep:
    """The variants of a sweep, in the order of the product of all values, the last parameter fastest."""

    def __init__(self, plan: Plan, rows: Iterable[Variant]) -> None:
        self.plan, self.rows = plan, sorted(rows, key=lambda it: it.number)
        if self.unapplied:
            said = f"rules that applied in none of {len(self)} variants: {', '.join(map(repr, self.unapplied))}"
            warnings.warn(said, RuleWarning, stacklevel=3)
        beyond = [it for it in self.rows if it.warnings]
        for it in beyond[:1]:
            warn_of([f"in {len(beyond)} of {len(self)} variants, as variant {it.number}: {it.warnings[0]}"], 4)

    def __len__(self) -> int:
        return len(self.rows)

    def __iter__(self) -> Iterator[Variant]:
        return iter(self.rows)

    def __getitem__(self, at: int) -> Variant:
        return self.rows[at]

    def __repr__(self) -> str:
        counts = f"broken: {len(self.broken())}, stopped: {len(self.stopped)}, failed: {len(self.failed)}"
        counts += f", rules that never applied: {len(self.unapplied)}" * bool(self.unapplied)
        return f"<sweep over {', '.join(self.plan.names)}, variants: {len(self)}, {counts}>"

    def broken(self, rule: str | None = None) -> list[Variant]:
        """Returns the variants in which a rule, or any rule, does not hold, or that failed, or that stopped, unless
        these may: their runs do not show that it holds."""
        if rule is not None and rule not in self.plan.rules:
            names = ", ".join(map(repr, self.plan.rules)) or "none"
            raise InputFault(f"there is no rule {rule!r}; the rules are {names}")
        return [
            it for it in self.rows
            if it.fault or it.stop and not self.plan.may_stop or (it.broken if rule is None else rule in it.broken)
        ]

    @property
    def unapplied(self) -> list[str]:
        """The rules that no variant decides: they checked nothing."""
        applied = {verdict.rule for it in self.rows for verdict in it.report.verdicts if verdict.applied}
        return [it for it in self.plan.rules if it not in applied]

    @property
    def first_broken(self) -> Variant | None:
        """The first variant of those that `broken` returns."""
        return next(iter(self.broken()), None)

    @property
    def stopped(self) -> list[Variant]:
        """The variants whose run stopped before its horizon."""
        return [it for it in self.rows if it.stop]

    @property
    def failed(self) -> list[Variant]:
        """The variants with a fault, which `on_error="keep"` keeps."""
        return [it for it in self.rows if it.fault]

    def keep(self, variant: Variant, folder: FileName) -> str:
        """Writes the files of a variant into a folder, with run.sh, which runs it, and returns the line of its run."""
        needs(variant, Variant, "a variant")
        if tuple(variant.parameters) != self.plan.names:
            raise InputFault(f"this variant is of another sweep: {said(variant.parameters)}")
        plan, path = self.plan.variant(tuple(variant.parameters.values())), made_folder(folder)
        for name, text in plan.files.items():
            write(path / name, text)
        after = ["status=$?", "fbsim expect rules trace || exit", 'exit "$status"'] if "rules" in plan.files else []
        return write_script(path, said(variant.parameters), shlex.join(["fbsim", *plan.words()]) + " > trace", *after)

    def frame(self) -> DataFrame:
        """Returns a pandas data frame: a row for each variant; parameters, end, each rule, statistics of latencies."""
        return figures.frame_of_sweep(self.rows)

    def plot(self, x: str | None = None, y: str | None = None, colour: str | None = None) -> Figure:
        """Returns a figure of two columns of the frame, in which broken, stopped and failed variants are marked.

        They are by default the first two parameters, or a single parameter and the greatest of the first latencies. Two
        parameters make a map, whose colours are those of the states, or of the column `colour`, as `stopping.most`.
        """
        names = [*self.plan.names, *(f"{it}.most" for it in self.plan.latencies), "end"]
        x, y = x or names[0], y or names[1]
        is_map = {x, y} <= {*self.plan.names}
        return figures.points(self.frame(), [it.state for it in self.rows], x, y, colour, is_map)


def choose(lists: Sequence[Sequence[object]], sample: int | None, seed: int) -> Iterator[Chosen]:
    """Goes over the product of all values, or a random sample of it, with numbers that rise."""
    numbers = range(math.prod(map(len, lists)))
    for number in numbers if sample is None else sorted(random.Random(seed).sample(numbers, min(sample, len(numbers)))):
        values, rest = [], number
        for it in reversed(lists):
            rest, at = divmod(rest, len(it))
            values.append(it[at])
        yield number, tuple(reversed(values))


def between(application: Application, name: str, given: object) -> Between:
    """Returns two patterns, and how their lines are paired, if they are that and the application has their names."""
    if not isinstance(given, (tuple, list)) or len(given) not in (2, 3) or not all(isinstance(it, str) for it in given):
        raise InputFault(f"latencies {name}: {given!r} is not (pattern, pattern) or (pattern, pattern, pair)")
    for it in given[:2]:
        Pattern(it)
    ask_patterns(application, given[:2])
    ask_pair(application, given[:2], *given[2:] or ["queue"])
    return tuple(given)  # type: ignore[return-value]


def files_of(application: Application, stimuli: Stimuli, rules: FileName | None) -> tuple[dict[str, str], list[str]]:
    """Returns the texts of all files, by their names in the folder of a variant, and those of block types."""
    types = {f"types{k}.iec": it for k, it in enumerate(application.types)}
    given = {"application.iec": application.declaration, "deploy.toml": application.deploy, "rules": rules, **types}
    application.check()  # (it names a file that can't be read)
    files = {name: read(it) for name, it in given.items() if it is not None}
    if isinstance(stimuli, (str, os.PathLike)):
        application.check(stimuli)
        files["stimuli.csv"] = read(stimuli)
    elif stimuli is not None:
        files["stimuli.csv"] = stimuli_text(stimuli)
        call([*application.call_words("check", None, {})[0], "--stim", "-"], files["stimuli.csv"])
    return files, list(types)


def names_of_rules(application: Application, rules: FileName | None) -> tuple[str, ...]:
    """Returns the names of rules, which may name only what the application has: it reports on a trace of no lines."""
    if rules is None:
        return ()
    with temporary_folder() as folder:
        write(folder / "trace", "end 1\n")
        return tuple(it.rule for it in check_rules(Trace(folder / "trace", application), rules).verdicts)


def planned(
    application: Application, parameters: Mapping[str, Iterable[object]], stimuli: Stimuli, horizon: int,
    steps: int | None, rules: FileName | None, latencies: Mapping[str, Between], sample: int | None, seed: int,
    stops: bool, on_error: Literal["raise", "keep"], timeout: float | None
) -> tuple[Plan, list[Chosen]]:
    """Returns what a sweep runs, or raises the fault of what all variants have in common."""
    needs(parameters, Mapping, "a table of parameters: {NAME: values}")
    needs(latencies, Mapping, "a table of latencies: {NAME: (pattern, pattern)}")
    texts_of(parameters, "names of parameters")
    texts_of(latencies, "names of latencies")
    whole(seed, "seed")
    if sample is not None and whole(sample, "sample") < 1:
        raise InputFault(f"sample is {sample!r}, and not at least 1")
    if on_error not in ("raise", "keep"):
        raise InputFault(f'on_error is {on_error!r}, and not "raise" or "keep"')
    names = names_of_rules(application, rules)
    files, types = files_of(application, stimuli, rules)
    lists = [values_of(name, it) for name, it in parameters.items()]
    wanted = {name: between(application, name, it) for name, it in latencies.items()}
    whole(horizon, "horizon")
    keeps = on_error == "keep"
    plan = Plan(files, types, horizon, steps, wanted, tuple(parameters), names, seconds(timeout), keeps, stops)
    chosen = list(choose(lists, sample, seed))
    if not parameters or not chosen:
        raise InputFault("a sweep has at least one parameter, and each has at least one value")
    places: dict[tuple[str, ...], str] = {}
    for name in parameters:
        file, _, parts = (name, None, ()) if name in ("horizon", "steps") else place_of(name)
        place = file, *(str(int(it)) if it.isdecimal() else it.upper() for it in parts)
        if places.setdefault(place, name) != name:
            raise InputFault(f"{places[place]} and {name} are one parameter")
    return plan, chosen


def variants(
    plan: Plan, chosen: Sequence[Chosen], executor: Executor | None, cache: FileName | None
) -> Iterator[Variant]:
    """Runs variants, and goes over them as they come, by an executor or by processes of this machine."""
    if executor is not None and not hasattr(executor, "submit"):
        raise InputFault(f"{executor!r} is not an executor, as of concurrent.futures")
    kept = None if cache is None else Cache(cache)
    if executor is not None:
        yield from run_all(plan, chosen, executor, kept)
        return
    count = len(os.sched_getaffinity(0)) if hasattr(os, "sched_getaffinity") else os.cpu_count()
    try:
        with ProcessPoolExecutor(count) as own:
            yield from run_all(plan, chosen, own, kept)
    except BrokenProcessPool as it:
        what = "put the sweep under `if __name__ == \"__main__\":`, or give an executor"
        raise Fault(f"a process of the sweep ended: {what}") from it


def run_all(plan: Plan, chosen: Sequence[Chosen], executor: Executor, cache: Cache | None) -> Iterator[Variant]:
    """Runs variants by an executor, with a progress bar if standard error is a terminal. The cache takes what ends."""
    left, keys, count = [], dict[int, str](), 0
    for number, values in chosen:
        if cache is not None and (key := cache.key(plan, values)) is not None:
            keys[number] = key
            row = cache.load(key, number, dict(zip(plan.names, values)))
            if row is not None and tuple(it.rule for it in row.report.verdicts) == plan.rules:
                count += 1
                yield row
                continue
        left.append((number, values))
    # (one call of the executor runs some variants)
    size = max(1, min(20, len(left) // 32))
    batches = [left[at:at + size] for at in range(0, len(left), size)]
    calls = {submitted(executor, plan, it): it for it in batches}
    waiting = set(calls)
    try:
        for it in as_completed(calls):
            waiting.discard(it)
            rows = stored(returned(it, plan, calls[it]), cache, keys)
            for row in rows:
                if row.fault and not plan.keeps_faults:
                    raise row.fault
                count += 1
                show_progress(count, len(chosen))
                yield row
    finally:
        for it in waiting:
            if not it.cancel() and it.done() and not it.exception():
                stored(returned(it, plan, calls[it]), cache, keys)
        show_progress(None, 0)


def submitted(executor: Executor, plan: Plan, batch: Sequence[Chosen]) -> Future[list[Variant]]:
    """Has an executor run variants."""
    try:
        return executor.submit(run_batch, plan, batch)
    except Exception as it:
        raise Fault(f"the executor takes no variants: {type(it).__name__}: {it}") from it


def returned(call: Future[list[Variant]], plan: Plan, batch: Sequence[Chosen]) -> list[Variant]:
    """Returns the variants that an executor has run. What it lost, or did not run, are variants with that fault."""
    numbers = [it for it, _ in batch]
    named = f"variants {numbers[0]} to {numbers[-1]}" if len(numbers) > 1 else f"variant {numbers[0]}"
    try:
        rows, fault = call.result(), Fault(f"the executor did not run {named}: it returned others")
        # (without `keeps_faults`, the first fault ends a batch)
        ends = not plan.keeps_faults and bool(rows) and rows[-1].fault is not None
        if [it.number for it in rows] == (numbers[:len(rows)] if ends else numbers):
            return rows
    except (Fault, BrokenProcessPool):
        raise
    except Exception as it:
        fault = Fault(f"the executor did not run {named}: {type(it).__name__}: {it}".rstrip(": "))
        fault.__cause__ = it
    fault.add_note(f"variant {numbers[0]}: {said(dict(zip(plan.names, batch[0][1])))}")
    return [Variant(it, dict(zip(plan.names, values)), None, None, Report(()), {}, fault) for it, values in batch]


def stored(rows: list[Variant], cache: Cache | None, keys: Mapping[int, str]) -> list[Variant]:
    """Returns variants, which are in the cache then, but for faults."""
    for it in rows if cache is not None else []:
        if it.fault is None and it.number in keys and cache is not None:
            cache.store(keys[it.number], it)
    return rows


def show_progress(count: int | None, of: int) -> None:
    """Draws a bar on standard error, if that is a terminal, or ends it."""
    if not sys.stderr.isatty():
        return
    if count is None:
        print(file=sys.stderr)
    else:
        print(f"\r[{'#' * (30 * count // of):30}] {count} of {of} variants", end="", file=sys.stderr, flush=True)
