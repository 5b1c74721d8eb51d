"""What an import comes to after its expansions: instances, bytes and steps.

What passes a limit is refused at its place in the XML, with the name of the construct."""

from __future__ import annotations

from collections.abc import Iterable
from typing import TYPE_CHECKING

from .blocks import Block
from .bodies import section
from .common import MARK, Faults, Place
from .made import Made

if TYPE_CHECKING:
    from .network import System
    from .writing import Types

MOST_INSTANCES, MOST_BYTES, MOST_STEPS, USUAL_STEPS = 4096, 2**20, 10_000_000, 10_000


class Sizes:
    """Counts the instances of types, and the steps that an event takes at most in a type that an expansion made."""

    def __init__(self, types: Types) -> None:
        self.types, self.counts, self.most_steps = types, dict[Block, int](), dict[Block, int]()

    def parts(self, block: Block) -> list[Block]:
        """Return the types of the instances in a composite type."""
        if block in self.types.networks:
            return [it.block for it in self.types.networks[block].instances.values()]
        library = self.types.library
        names = [it.partition(" : ")[2].partition("(")[0] for it in section(block.text, "FBS")] if block.kind == "declared" else []
        return [it for name in names if (it := library.built_in.get(name) or library.annex.get(name))]

    def instances(self, block: Block) -> int:
        """Return how many instances one of a type is, its components included."""
        if block not in self.counts:
            self.counts[block] = 1
            self.counts[block] += sum(self.instances(it) for it in self.parts(block))
        return self.counts[block]

    def steps(self, block: Block) -> int:
        """Return how many steps an event takes at most in a type of the library or of an expansion, all that it leads to inside included.

        An event takes one, each transition that is tried one, each action and each statement one; a reaction tries each transition at
        most twice. Inside a composite type each connection is taken at most once."""
        if block not in self.most_steps:
            self.most_steps[block] = 1
            if block.made:
                self.most_steps[block] += steps_of(block.made)
            elif block.kind == "declared" and section(block.text, "FBS"):
                wires = [it.partition(" TO ")[2].partition(".") for it in section(block.text, "EVENT_CONNECTIONS")]
                types = {name: kind.partition("(")[0] for name, _, kind in (it.partition(" : ") for it in section(block.text, "FBS"))}
                for name, dot, _ in wires:
                    inner = self.types.library.annex.get(types[name]) if dot else None
                    self.most_steps[block] += self.steps(inner) if inner else 1
            elif block.kind == "declared":
                rows = [it for part in ("EC_STATES", "EC_TRANSITIONS") for it in section(block.text, part)]
                actions = sum(it.count(",") + (" : " in it) for it in rows)
                self.most_steps[block] += 2 * len(section(block.text, "EC_TRANSITIONS")) + actions + block.text.partition("ALGORITHM")[2].count(";")
        return self.most_steps[block]


def steps_of(made: Made) -> int:
    """Return how many steps a reaction of a made chart takes at most, after that of the event."""
    actions = max(it.count("->") + ("DO_" in it and "->" not in it) for it in made.states)
    statements = max((it.count(";") for it in made.algorithms), default=0)
    return 2 * len(made.transitions) + actions + statements


def refuse_sizes(system: System, types: Types, texts: Iterable[tuple[Block, str]], application: str, faults: Faults) -> None:
    """Refuse what has more instances, or longer texts, than the simulator takes, where the limit is passed."""
    sizes, total = Sizes(types), 0
    for one in system.instances.values():
        count = sizes.instances(one.block)
        total += count
        if total > MOST_INSTANCES:
            more = f", which is {count:,} instances with its components," if count > 1 else ""
            faults.refuse(one.place, f"with {one.path.lstrip('.')} ({one.block.kind} type {one.block.name}){more} there are more than"
                                     f" {MOST_INSTANCES:,} instances")
            break
    written = 100
    for block, text in texts:
        size = len(MARK.sub("", text))
        written += size
        if written > MOST_BYTES:
            faults.refuse(block.place, f"with the {block.kind} type {block.name}, which has {size:,} bytes after its expansion, the texts have"
                                       f" more than {MOST_BYTES:,} bytes")
            return
    offset = MOST_BYTES - written
    if len(MARK.sub("", application)) > offset:
        faults.refuse(place_at(application, offset) or system.place, f"with the network of {system.name}, after its expansion, the texts"
                                                                     f" have more than {MOST_BYTES:,} bytes")


def place_at(marked: str, offset: int) -> Place | None:
    """Return the last place before an offset in a text, whose marks do not count."""
    found, at = None, 0
    for one in MARK.finditer(marked):
        if one.start() - at > offset:
            break
        found, at = Place(one[1], int(one[2]), int(one[3])), at + len(one[0])
    return found


def step_lines(types: Types) -> list[str]:
    """Return what the report says of steps: for each expansion those that an event takes at most, and a limit that is safe."""
    sizes = Sizes(types)
    made = {it.out: sizes.steps(it) for it in types.written if it.made or it.kind == "declared"}
    rows = [f"{name}: at most {count} steps for an event" for name, count in made.items()]
    rows += [f"{name}: at most {count} more steps" for name, count in types.library.steps.items()]
    most = max([*made.values(), *types.library.steps.values()], default=0)
    safe = min(USUAL_STEPS * (1 + most), MOST_STEPS)
    return [*rows, f"if the application needs at most {USUAL_STEPS:,} steps in a tick without its expansions: --steps {safe}"] if most else []
