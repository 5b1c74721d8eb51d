#!/usr/bin/env python3
"""tools/texts_test.py: checks that tools/texts.py finds the texts of a source, and distinguishes those that a case shows to the byte from
others, in a small program.

The program is made by the kit's clang. It prints one text for each number that it is given, on standard output. ./gate runs this."""

import os
import subprocess
import sys
import tempfile

import program
import texts
from kit import rtlib
from served import Served

LOADER = "/lib64/ld-linux-x86-64.so.2"

SOURCE = r'''
//! "no text": a note
ghost use A.{"no text"};
const AGAIN: &str = " is \"given\" twice\n";
/// Says "no text".
fn first(text: &mut Text)
    requires { text ≡ codes "a clause" }
    ensures { result ≡ codes "a clause { of braces }" × { nested } }
{
    text.words("the first"); // "a note"
    let letter = '"';
    write!(text, "row {row}: {{{word}}}, {}", 'x')
}
#[error("no text that is printed")]
static SIGNS: [(Mark, &[u8]); 2] = [(Mark::Less, b"<"), (Mark::End, b"\x1b[0m")];
#[cfg(test)]
mod tests {
    fn no() { words("no text"); }
}
fn last() { format!(in alloc; "{name}; \
    goes on") }
'''
FOUND = [
    ("", ' is "given" twice\n'),
    ("first", "the first"),
    ("first", "row "),
    ("first", ": {"),
    ("first", "}, "),
    ("first", "<"),
    ("first", "\x1b[0m"),
    ("last", "; goes on"),
]
# A text for 1 and 2, which are referred to, for 3 and 4 by a table, for 5 in an instruction, and for 6 one that nobody asks for.
PROGRAM = r"""
static long call(long n, long a, long b, long c) {
    long r;
    __asm__ volatile("syscall" : "=a"(r) : "a"(n), "D"(a), "S"(b), "d"(c) : "rcx", "r11", "memory");
    return r;
}
__attribute__((noinline)) static void put(const char *text, long size) { call(1, 1, (long)text, size); }
static const char *const by_number[] = {"the third text", "the fourth text"};
static const long sizes[] = {14, 15};
void print(char number) __asm__("fb_stub::words::print");
__attribute__((noinline)) void print(char number) {
    volatile char room[8];
    switch (number) {
    case '1': put("the first text", 14); break;
    case '2': put("the second text", 15); break;
    case '3': case '4': put(by_number[number - '3'], sizes[number - '3']); break;
    case '5': *(volatile long *)room = *(const long *)"and five"; put((const char *)room, 8); break;
    case '6': put("the sixth text", 14); break;
    }
}
int main(void) {
    char number = 0;
    while (call(0, 0, (long)&number, 1) == 1) print(number);
    return 0;
}
__asm__(".globl _start; _start: xor %ebp, %ebp; mov %rdx, %r9; pop %rsi; mov %rsp, %rdx; and $-16, %rsp; push %rax; push %rsp;"
        "xor %r8d, %r8d; xor %ecx, %ecx; lea main(%rip), %rdi; call *__libc_start_main@GOTPCREL(%rip); hlt");
"""
TEXTS = {"1": b"the first text", "2": b"the second text", "3": b"the third text", "4": b"the fourth text", "5": b"and five", "6": b"the sixth text"}


class Copy(Served):
    """A copy of a program that is changed in memory."""

    def __init__(self, path, data):
        super().__init__(path)
        self.elf = texts.Elf(data)

    def write(self, at, new):
        self.changes = [] if self.elf.data[at : at + len(new)] == new else [self.elf.in_memory(at, new)]

    def printed(self, numbers):
        ran = self.call([], numbers.encode())
        return ran.stdout if (ran.returncode, ran.stderr) == (0, b"") else None


def made(folder):
    """Returns the program's bytes."""
    with open(f"{folder}/stub.c", "w", encoding="utf-8") as it:
        it.write(PROGRAM)
    # (code that is loaded before it calls the C library)
    with open("/proc/self/maps", encoding="utf-8") as it:
        library = next(row.split()[-1] for row in it if "/libc.so" in row or "/libc-" in row)
    words = [f"{rtlib.KIT}/toolchain/bin/clang", "-O2", "-fPIE", "-pie", "-ffreestanding", "-fno-builtin", "-nostdlib", "-fuse-ld=lld"]
    words += ["-Wl,--no-as-needed", f"-Wl,--dynamic-linker={LOADER}"]
    subprocess.run([*words, "-o", f"{folder}/stub", f"{folder}/stub.c", library], check=True)
    with open(f"{folder}/stub", "rb") as it:
        return it.read()


def reached(folder, data, uses, found):
    """Returns for each oracle the places of the program that it reaches."""
    library, noted = f"{folder}/reached.so", f"{folder}/reached"
    with open(library, "wb") as it:
        it.write(program.compiled("reached"))
    copy, settings = texts.watched(f"{folder}/stub", texts.Elf(data), {it.passed for it in uses if it.passed}, folder)
    around = {**os.environ, **dict(it.split("=", 1) for it in settings), "REACHED_FILE": noted, "LD_PRELOAD": library}
    places = []
    for one in found:
        wrote = subprocess.run([copy], input=one.name.encode(), capture_output=True, check=True, env=around).stdout
        places.append(texts.taken(noted) if wrote == one.shown else {"wrote otherwise"})
    return places


def oracle(numbers, looks_at):
    """Returns an oracle that compares the first bytes of what the numbers print, this many."""
    shown = b"".join(TEXTS[it] for it in numbers)
    return texts.Oracle(numbers, shown, lambda rooms: (rooms.printed(numbers) or b"")[:looks_at] == shown[:looks_at], len(shown))


def faults_of_program():
    """Returns what is wrong with what is found in the small program."""
    literals = [texts.Literal("crates/fb_stub/src/words.rt", 1, "print", it) for it in TEXTS.values()]
    with tempfile.TemporaryDirectory(prefix="texts-") as folder:
        data = made(folder)
        uses = texts.uses_of(data, literals)
        # The second text is shown, and no case looks at it. No case shows the sixth.
        found = [oracle("1", 99), oracle("12", 14), oracle("34", 99), oracle("5", 99)]
        with Copy(f"{folder}/stub", data) as copy:
            if not all(it.holds(copy) for it in found):
                return ["the small program does not print what it should"]
            places = reached(folder, data, uses, found)
            unreached, survived = texts.try_uses([copy], data, uses, texts.Ranking(literals, found, places))
            is_whole = all(it.holds(copy) for it in found)
    # Of the two texts that are listed as no gaps, a case shows the first one.
    listed = [texts.name_of(it) for it in literals[:2]]
    new, shown = texts.sorted_out([*unreached, *survived], listed, literals)
    of = {text: {it.passed for it in uses if it.literal.text == text and it.is_sure} for text in TEXTS.values()}
    by_oracle = [{text for text in TEXTS.values() if of[text] & it} for it in places]
    five = TEXTS["5"]  # its place is the beginning of the function
    came = ({it.literal.text for it in uses}, by_oracle, *({it.literal.text for it in them} for them in (unreached, survived, new)), shown, is_whole)
    by_numbers = [{TEXTS["1"], five}, {TEXTS["1"], TEXTS["2"], five}, {five}, {five}]
    expected = ({*TEXTS.values()}, by_numbers, {TEXTS["6"]}, {TEXTS["2"]}, {TEXTS["6"]}, listed[:1], True)
    return [f"expected {it}; got {was}" for it, was in zip(expected, came) if it != was]


def faults_of_copies():
    """Returns what is wrong with what is left out of the lists: copies, constants that no code reads, and single bytes."""
    one, two, byte = (texts.Literal("crates/fb_stub/src/words.rt", 1, "print", it) for it in (b"one", b"two", b"3"))
    shown, copy, constant = (texts.Use("", one, [], passed, is_sure) for passed, is_sure in ((1, True), (2, True), (0, False)))
    alone, replaced, single = (texts.Use("", it, [], 3, True) for it in (two, one, byte))
    survivor, foreign = (texts.Use(it, one, [], 4, True) for it in ("fb_stub::other", "fb_other::print"))
    lacking = [constant, replaced, survivor, foreign, single]
    came = texts.without_copies([copy, alone], lacking, [shown, copy, alone, *lacking])
    return [] if came == ([alone], [survivor]) else [f"copies are left out otherwise: {came}"]


def main():
    found = [(it.function, it.text.decode()) for it in texts.literals_of("crates/fb_stub/src/lib.rt", SOURCE)]
    faults = [] if found == FOUND else [f"the texts of a source: expected {FOUND}; got {found}"]
    faults += faults_of_copies() + faults_of_program()
    for it in faults:
        print(f"texts_test: {it}")
    print(f"texts_test: {len(faults)} faults")
    return bool(faults)


if __name__ == "__main__":
    sys.exit(main())
