#!/usr/bin/env python3
"""tools/sessions.py [--program PROGRAM] [COUNT]: talks to sessions of random systems, and compares them with runs.

For each of COUNT systems (1,000), drawn as in tools/drawn.py, a client sends random commands to `fbsim session`. It waits for each
answer before it sends the next command, at most SECONDS. It knows the least tick by itself, and so which rows must be accepted and
which are late. At the end the rows that were answered are written as stimuli, and the lines of the trace must be those of
`fbsim run` with them, with 1 and 4 workers. All answers must be those of tools/second_session.py to the same commands. It also
plays examples/tank/session, looks at how input is read and at outputs that are closed, and times commands that are written ahead.
./gate runs this after it has run the program."""

import os
import queue
import random
import resource
import shutil
import subprocess
import sys
import threading
import tomllib

import drawn
import second_session
from kit import TOP
from program import Room, rt, side_by_side

PROGRAM = "fbsim"
COUNT, COMMANDS, AHEAD, SECONDS, SHOWN, PAIRS, MANY = 1_000, 60, 400, 5, 5, 20_000, 10_005
DELAY = "APPLICATION A FBS D : E_DELAY(DT := T#4ms); END_FBS END_APPLICATION"
ANSWERS = ("= ", "! ", "stop ", "end ")


class Session:
    """A session that is talked to, with a thread that reads what it writes."""

    def __init__(self, room, words):
        command = [*rt.drop_to_nobody(), room.program, *words]
        self.process = subprocess.Popen(command, cwd=room.folder, stdin=subprocess.PIPE, stdout=subprocess.PIPE, text=True)
        self.lines, self.commands, self.read = [], [], queue.Queue()
        threading.Thread(target=self._drain, daemon=True).start()

    def _drain(self):
        for line in self.process.stdout:
            self.read.put(line)
        self.read.put(None)

    def line(self):
        """Returns the next line, or None at the end. It raises queue.Empty if there is none in time."""
        line = self.read.get(timeout=SECONDS)
        if line is not None:
            self.lines.append(line)
        return line

    def ask(self, command):
        """Sends a command, and returns its answer."""
        self.commands.append(command)
        self.process.stdin.write(command + "\n")
        self.process.stdin.flush()
        while True:
            line = self.line()
            if line is None or line.startswith(ANSWERS):
                return line


class Client:
    """What a client knows of a session: the least tick and the number of rows."""

    def __init__(self, session, sketch, rng):
        self.session, self.sketch, self.rng = session, sketch, rng
        self.least, self.rows, self.stopped, self.faults = 0, 0, False, []

    def expect(self, command, answer, wanted):
        """Notes an answer that is another one than what was to come."""
        if answer is None or not answer.startswith(wanted):
            self.faults.append(f"{command!r}: expected {wanted!r}, got {answer!r}")

    def near(self):
        """Returns how far a tick is from the least one: half of the time it is next to it."""
        return self.rng.choice([self.rng.randint(-2, 2), self.rng.randint(0, AHEAD // 8), self.rng.randint(-2, 2), self.rng.randint(0, AHEAD)])

    def give(self):
        """Gives a row that fits, and checks that it is accepted exactly if it is not late."""
        tick = max(0, self.least + self.near())
        number = self.rng.choice([number for number, (kind, _) in enumerate(self.sketch.parts) if kind.inputs])
        event = f"I{number}.{self.rng.choice(self.sketch.parts[number][0].inputs)}"
        command = f"give {tick} {event}"
        answer = self.session.ask(command)
        if self.stopped:
            self.expect(command, answer, "! the run has stopped\n")
        elif tick < self.least:
            self.expect(command, answer, f"! late: tick {tick} has begun\n")
        else:
            self.expect(command, answer, f"= row {self.rows} {tick},{event},")
            self.rows += 1

    def go(self):
        """Goes to a tick, or takes one event."""
        tick = max(1, self.least + self.near())
        command = self.rng.choice([f"until {tick}", "next"])
        answer = self.session.ask(command)
        if self.stopped:
            self.expect(command, answer, "! the run has stopped\n")
        elif command != "next" and tick < self.least:
            self.expect(command, answer, f"! below {self.least}\n")
        else:
            self.came(command, tick, answer)

    def came(self, command, tick, answer):
        """Notes where the session has come to."""
        words = (answer or "").split()
        if words[:1] == ["stop"]:
            self.stopped, self.least = True, int(words[1]) + 1
        elif words[:2] == ["=", "took"]:
            self.least = int(words[2]) + 1
        elif words[:2] == ["=", "break"]:
            self.least = int(words[4]) + 1
        elif command != "next":
            self.expect(command, answer, f"= at {tick}\n")
            self.least = tick

    def other(self):
        """Sends a command that changes nothing of the trace, or a wrong one."""
        commands = ["peek", f"show I{self.rng.randrange(len(self.sketch.parts))}", "break * * *", "clear 1", "clear 99", "until", "give 5", "go", "", "x" * 70_000]
        command = self.rng.choice(commands)
        self.expect(command[:40], self.session.ask(command), ("= ", "! "))


def fault_of(room, number):
    """Returns what is wrong with the session of the system with this number, or None."""
    rng, sketch = random.Random(number), drawn.Sketch(drawn.Dice(number))
    files = {f"{number}.iec": sketch.declaration(), f"{number}.deploy": sketch.deployment()}
    for name, text in files.items():
        with open(f"{room.folder}/{name}", "w", encoding="utf-8") as it:
            it.write(text)
    steps, form = rng.choice(drawn.STEPS), rng.choice("12")
    words = [f"{number}.iec", "--deploy", f"{number}.deploy", "--steps", str(steps), "--trace", form]
    session = Session(room, ["session", *words])
    client = Client(session, sketch, rng)
    try:
        for _ in range(rng.randint(1, COMMANDS)):
            rng.choices([client.give, client.go, client.other], [5, 3, 2])[0]()
        horizon = client.least + rng.randint(1, AHEAD)
        session.ask(f"end {horizon}")
        session.process.stdin.close()
        status = session.process.wait(SECONDS)
    except (queue.Empty, BrokenPipeError, subprocess.TimeoutExpired) as fault:
        session.process.kill()
        return f"system {number}: {type(fault).__name__} after {session.lines[-1:]}"
    declaration, deployment = files.values()
    second = second_session.Session(declaration, tomllib.loads(deployment), (), steps, int(form))
    if "".join(session.lines) != second_session.talk(second, "\n".join(session.commands)):
        client.faults.append("the second session answers otherwise")
    trace = "".join(it for it in session.lines if not it.startswith(("=", "!")))
    rows = "tick,event,values\n" + "".join(it.split(" ", 3)[3] for it in session.lines if it.startswith("= row "))
    with open(f"{room.folder}/{number}.csv", "w", encoding="utf-8") as it:
        it.write(rows)
    for workers in ("1", "4"):
        ran = room.call(["run", *words, "--stim", f"{number}.csv", "--horizon", str(horizon), "--workers", workers])
        if (ran.stdout.decode(), ran.returncode) != (trace, status):
            client.faults.append(f"run with {workers} workers writes another trace, or ends otherwise")
    return f"system {number}: {client.faults[:SHOWN]}" if client.faults else None


def fault_of_tank(room):
    """Returns what is wrong with the session of examples/tank/session, or with the run of its rows, or None."""
    tank = f"{room.folder}/tank"
    shutil.copytree(f"{TOP}/examples/tank", tank)
    answers, trace = (open(f"{tank}/session/{it}", "rb").read() for it in ("answers", "trace"))
    played = subprocess.run([*rt.drop_to_nobody(), f"{tank}/session/plant.py", room.program], stdout=subprocess.PIPE)
    if (played.stdout, played.returncode) != (answers, 0):
        return "examples/tank/session: other answers"
    with open(f"{tank}/rows.csv", "wb") as it:
        subprocess.run(["sed", "-n", "-e", "1i tick,event,values", "-e", "s/^= row [0-9]* //p"], input=answers, stdout=it, check=True)
    words = ["run", "tank/tank.iec", "--deploy", "tank/session/deploy.toml", "--stim", "tank/rows.csv", "--horizon", "15000"]
    return None if room.call(words).stdout == trace else "examples/tank/session: its rows have another trace"


def piped(room, commands, output=subprocess.PIPE):
    """Returns what a session of a delay comes to, with these commands written ahead through a pipe."""
    with open(f"{room.folder}/delay.iec", "w", encoding="utf-8") as it:
        it.write(DELAY)
    command = [*rt.drop_to_nobody(), room.program, "session", "delay.iec"]
    return subprocess.run(command, cwd=room.folder, input=commands, stdout=output, stderr=subprocess.PIPE)


def faults_of_pipes(room):
    """Says what is wrong with sessions whose input ends in a line, and whose output is closed or full."""
    for cut, wanted in ((b"until 6", b"= at 6\nend 6\n"), (b"give 5 D.ST", b"! E29: row 0: instance D : E_DELAY has no event input ST\nend 1\n")):
        if piped(room, cut).stdout != wanted:
            yield f"input that ends in the midst of the line {cut!r}"
    many = piped(room, b"peek\n" * MANY + b"end 77\n").stdout
    if many != b"= nothing waits\n" * MANY + b"end 77\n":
        yield f"{MANY} commands have {many.count(b'nothing')} answers, and {many[-30:]!r}"
    folder = os.open(room.folder, os.O_RDONLY)
    unread = subprocess.run([*rt.drop_to_nobody(), room.program, "session", "delay.iec"], cwd=room.folder, stdin=folder, capture_output=True)
    os.close(folder)
    if (unread.returncode, unread.stdout, unread.stderr) != (3, b"", b"file fault\n"):
        yield f"input that is a folder: {unread.returncode}, {unread.stdout[:80]!r}, {unread.stderr!r}"
    for length, wanted in ((65_536, b"! expected a command; help lists them\nend 1\n"), (65_537, b"! a line has at most 65536 bytes\nend 1\n")):
        for end in (b"", b"\n"):
            if piped(room, b"x" * length + end).stdout != wanted:
                yield f"a line of {length} bytes"
    with open("/dev/full", "wb") as full:
        for commands in (b"peek\n", b"give 0 D.START\nuntil 5\n"):
            ended = piped(room, commands, full)
            if (ended.returncode, ended.stderr) != (3, b"write fault after 0 bytes\n"):
                yield f"a full output: {ended.returncode}, {ended.stderr!r}"


def fault_of_pace(room):
    """Returns that commands which are written ahead take too long, or that one has no answer of its own, or None."""
    before = resource.getrusage(resource.RUSAGE_CHILDREN)
    said = piped(room, b"".join(b"give %d D.START\nuntil %d\n" % (tick, tick + 1) for tick in range(PAIRS))).stdout.splitlines()
    after = resource.getrusage(resource.RUSAGE_CHILDREN)
    answers = [it for it in said if it.startswith((b"=", b"!"))]
    wanted = [it for tick in range(PAIRS) for it in (b"= row %d %d,D.START," % (tick, tick), b"= at %d" % (tick + 1))]
    if answers != wanted:
        at = next((at for at, pair in enumerate(zip(answers, wanted)) if pair[0] != pair[1]), min(len(answers), len(wanted)))
        return f"{PAIRS} pairs of give and until: {len(answers)} answers; answer {at} is {answers[at : at + 1]}, not {wanted[at : at + 1]}"
    taken = after.ru_utime + after.ru_stime - before.ru_utime - before.ru_stime
    return f"{PAIRS} pairs of give and until took {taken:.2f} s of a processor" if taken > 1 else None


def try_all(program, count=COUNT):
    """Returns whether all sessions are as they should be."""
    with Room(program) as room:
        faults = [it for it in [fault_of_tank(room), *faults_of_pipes(room), fault_of_pace(room)] if it]
        faults += [it for it in side_by_side(lambda number: fault_of(room, number), range(count)) if it]
    for it in faults[:SHOWN]:
        print(it)
    print(f"sessions: {len(faults)} faults in {count} sessions of random systems, the tank's and others", flush=True)
    return not faults


if __name__ == "__main__":
    given = sys.argv[1:]
    made = given[1] if given[:1] == ["--program"] else f"{TOP}/crates/{PROGRAM}/out/{PROGRAM}"
    rest = given[2:] if given[:1] == ["--program"] else given
    sys.exit(not try_all(os.path.abspath(made), int(rest[0]) if rest else COUNT))
