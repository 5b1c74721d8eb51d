#!/usr/bin/env python3
"""The way of one event: the functions that it goes through, and how deep the calls are.

The event is a message for a basic block of the application. The block samples one value from a held copy, clears one transition
that has no guard, runs `X := A + B;` and emits one event with one value to a block in its own resource. WAY has its functions in
the crates of a resource and of what is in it, each below its caller. This program sees that each caller calls what stands below it,
and that docs/maintain/ARCHITECTURE.md gives the two figures. Without a fault it prints them."""

import os
import re
import sys

CRATES = ("fb_resource", "fb_net", "fb_ecc", "fb_st")
PAGE = "docs/maintain/ARCHITECTURE.md"

# Each line is a crate, the file of the function below its src/, and its name. A line stands below its caller, one step to the right.
WAY = """
fb_resource resource/run take_all
  fb_resource next find_next
  fb_resource one_taking take
    fb_resource tick_counts step
    fb_net tree deliver
      fb_net taking/take arrive
        fb_net taking/take bring
          fb_net taking/bring hold_carried
            fb_net resource hold
              fb_net held_copies set
                fb_net held_copies side_index_of
        fb_net taking/arrive arrive_basic
          fb_net taking/emit row_of
          fb_net taking/samples sampled_values
            fb_net resource sampled
              fb_net resource shown
                fb_net held_copies get
                  fb_net held_copies side_index_of
          fb_net resource way
          fb_net taking/basic_blocks react_at
            fb_ecc reaction react
              fb_ecc shared parts
              fb_ecc reaction sample
                fb_st frame put_at
                  fb_st slot_list set
                    fb_st layout word_of
              fb_ecc shared leaving
              fb_ecc trial first_exit
                fb_st meter step
                fb_ecc trial is_true
                  fb_ecc trial is_present
              fb_ecc action perform_all
                fb_ecc shared parts
                fb_st meter step
                fb_ecc program body
                fb_st algorithm exec_compiled
                  fb_st running run_all
                    fb_st running run
                      fb_st meter step
                      fb_st short number
                        fb_st short word
                        fb_st short sum
                fb_ecc action emit
                  fb_st frame value_at
                    fb_st slot_list value
                      fb_st slot_list value_of
              fb_ecc reaction goes_on
          fb_net taking/emit write_taken
          fb_net taking/emit emit_all
            fb_net taking/emit emit_value
              fb_net resource publish
                fb_net resource shell_mut
                  fb_net resource shell_index
              fb_net taking/emit send_out
                fb_net taking/emit put_out
    fb_resource one_taking reason_of
    fb_resource posting lone_of
    fb_resource posting count_lone
"""


class Step:
    """A function on the way, at its depth, from 1."""

    def __init__(self, line):
        self.depth = 1 + (len(line) - len(line.lstrip())) // 2
        self.crate, self.file, self.name = line.split()

    def key(self):
        return self.crate, self.file, self.name

    def __str__(self):
        return f"{self.crate}::{self.file.replace('/', '::')}::{self.name}"


def steps():
    return [Step(line) for line in WAY.splitlines() if line]


def body_of(step):
    """Returns the body of a function, or None where its file has no such function. Of several of one name it is the longest."""
    with open(f"crates/{step.crate}/src/{step.file}.rt") as it:
        lines = it.read().split("\n")
    bodies = []
    for at, line in enumerate(lines):
        head = re.match(rf"(\s*)(?:pub(?:\([a-z]+\))? )?fn {step.name}\b", line)
        if head:
            first = next((k for k in range(at, len(lines)) if lines[k] == head[1] + "{"), None)
            last = first and next(k for k in range(first, len(lines)) if lines[k] == head[1] + "}")
            bodies.append("\n".join(lines[first : last + 1]) if first else line)
    return max(bodies, key=len, default=None)


def faults_of(way):
    """Returns what is wrong with a way: a function that is not there, or that its caller does not call."""
    faults, above = [], []
    for step in way:
        del above[step.depth - 1 :]
        body = body_of(step)
        if body is None:
            faults.append(f"tools/way.py: there is no function {step}")
        elif above and not re.search(rf"\b{step.name}\(", body_of(above[-1]) or ""):
            faults.append(f"tools/way.py: {above[-1]} does not call {step}")
        above.append(step)
    return faults


def figures_of(way):
    """Returns how many functions a way has, and how deep it is."""
    return len({step.key() for step in way}), max(step.depth for step in way)


def main():
    way = steps()
    faults = faults_of(way)
    count, depth = figures_of(way)
    sentence = f"{count} functions, at most {depth} calls deep"
    with open(PAGE) as it:
        if sentence not in " ".join(it.read().split()):
            faults.append(f"{PAGE}: the way of one event is {sentence}")
    for fault in faults:
        print(fault)
    print(f"way of one event: {len(faults)} faults" if faults else f"way of one event: {sentence}")
    return bool(faults)


if __name__ == "__main__":
    os.chdir(os.path.join(os.path.dirname(os.path.abspath(__file__)), ".."))
    sys.exit(main())
