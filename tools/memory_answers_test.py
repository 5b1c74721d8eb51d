#!/usr/bin/env python3
"""tools/memory_answers_test.py: checks that tools/memory_answers.py finds each form of an answer, and takes none for one that is none."""

import sys

import memory_answers

# A body, and the answers that it makes.
BODIES = {
    "if many > 4_096 { return Err(AllocError); } Ok(())": ["AllocError"],
    "let Some(it) = found else { return Err(RunError::Memory); }; Ok(it)": ["RunError::Memory"],
    "found.ok_or(AllocError)": ["AllocError"],
    "read(it).map_err(|_| WaveError::Read)": ["WaveError::Read"],
    "match found { Some(it) => Ok(it), None => Err(AllocError) }": ["AllocError"],
    "match found { Some(it) if it.len() > 65_535 => Err(AllocError), Some(it) => Ok(it), None => Ok(0) }": ["AllocError"],
    "match made { Err(_) => Err(Failure::Memory), Ok(it) => Ok(it) }": ["Failure::Memory"],
    "match end { End::Read | End::Memory => Failure::Memory, End::Over => Failure::Over }": ["Failure::Memory"],
    "match end { ReadFault::Read => Failure::Memory, ReadFault::Memory => Failure::Memory }": ["Failure::Memory"],
    "match end { ReadFault::Memory => Failure::File, ReadFault::Read => Failure::File }": ["Failure::File"],
    "match put(it) { Err(AllocError) => { if many > 9 { Err(WaveError::Read) } else { Err(WaveError::Memory) } } Ok(()) => Ok(()) }": ["WaveError::Read"],
    "self.written = Err(AllocError);": ["AllocError"],
    "Unread { part: Part::Own, fault: SourceFault::File }": ["SourceFault::File"],
    "Err((AllocError, messages))": ["AllocError"],
    "read_line(first, left, PartFault::First)?;": ["PartFault::First"],
    "match f() { Ok(it) => match it { 0 => Err(fb_sim::RunError::Memory), _ => Ok(it) }, Err(AllocError) => Err(RunError::Memory) }": ["fb_sim::RunError::Memory"],
    # None of these makes an answer.
    "match put(it) { Err(AllocError) => Err(RunError::Memory), Ok(()) => Ok(()) }": [],
    "match put(it) { Err(PutError::Memory) => return Err(RunError::Memory), Err(PutError::Full) => {} Ok(()) => {} }": [],
    "put(it)?; let done: Result<(), AllocError> = put(it); done": [],
    "if let Err(RunError::Memory) = done { count += 1; }": [],
    "if kind == ErrorKind::OutOfMemory { count += 1; }": [],
    'say("AllocError"); // Err(AllocError)': [],
    "match end { End::Memory | End::NoMemory => Failure::Memory, End::Over => Failure::Over }": [],
}


def faults_of_bodies():
    """Returns the bodies of which the check lists other answers."""
    faults = []
    for body, made in BODIES.items():
        its = [it.text for it in memory_answers.made_in(memory_answers.tokens_of("{ " + body + " }", 1))]
        faults += [f"{body}: {its}, not {made}"] if its != made else []
    return faults


def faults_of_comparison():
    """Returns where a file that lacks a place, has one too many or another one, is no fault."""
    places = [memory_answers.Place("c::m::f", "crates/c/src/m.rt", 7, "AllocError")]
    row = {"functions": ["c::m::f"], "makes": ["AllocError"], "refused": "memory"}
    wrong = {
        "lacks": [],
        "makes no such answer": [row, {**row, "functions": ["c::m::g"]}],
        "there twice": [row, row],
        "tools/memory_answers.toml has": [{**row, "makes": ["RunError::Memory"]}],
    }
    faults = [f"{text}: not found" for text, rows in wrong.items() if not any(text in it for it in memory_answers.compared(places, {"answers": rows}))]
    return faults + memory_answers.compared(places, {"answers": [row]})


def main():
    """Prints the faults, and returns the status."""
    faults = faults_of_bodies() + faults_of_comparison()
    print(*faults, sep="\n", end="\n" * bool(faults))
    print(f"memory_answers_test: {len(BODIES)} bodies, {len(faults)} faults", flush=True)
    return int(bool(faults))


if __name__ == "__main__":
    sys.exit(main())
