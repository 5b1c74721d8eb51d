"""Hostile files: each is refused within 5 seconds and 200 MB, and nothing is written elsewhere or over something."""

from __future__ import annotations

import os
import resource
import subprocess
import sys

import pytest
from importing import TOP, basic, import_all, system

SECONDS, BYTES = 5, 200 * 10**6
HEAD = '<?xml version="1.0" encoding="UTF-8"?>\n'
SECRET = "root:x:0:0"
LAUGHS = (
    HEAD
    + "<!DOCTYPE FBType [\n<!ENTITY a0 \"ha\">\n"
    + "".join(f'<!ENTITY a{it} "{f"&a{it - 1};" * 10}">\n' for it in range(1, 12))
    + ']>\n<FBType Name="&a11;"/>\n'
)
EXTERNAL = (
    HEAD + '<!DOCTYPE FBType [<!ENTITY x SYSTEM "file:///etc/passwd">]>\n<FBType Name="A" Comment="&x;">&x;</FBType>\n'
)
FILES = {
    "bomb": LAUGHS,
    "quadratic": HEAD + f'<!DOCTYPE FBType [<!ENTITY a "{"x" * 50_000}">]>\n<FBType Name="{"&a;" * 50_000}"/>\n',
    "external": EXTERNAL,
    "parameter entity": HEAD
    + '<!DOCTYPE FBType [<!ENTITY % x SYSTEM "http://127.0.0.1:1/x.dtd"> %x;]>\n<FBType Name="A"/>\n',
    "entity of the DTD": HEAD + '<!DOCTYPE FBType SYSTEM "file:///etc/passwd">\n<FBType Name="A" Comment="&evil;"/>\n',
    "entity in a text": HEAD + basic("")[39:].replace("<![CDATA[]]>", "&evil;"),
    "deep": HEAD + "<FBType>" * 10_000 + "</FBType>" * 10_000,
    "many elements": HEAD + "<FBType>" + "<a/>" * 900_000 + "</FBType>",
    "many attributes": HEAD + "<FBType " + " ".join(f'a{it}=""' for it in range(300_000)) + "/>",
    "same attribute": HEAD + '<FBType Name="A" Name="B"/>',
    "long name": HEAD + "<" + "F" * 4_000_000 + "/>",
    "long value": HEAD + f'<FBType Name="{"F" * 4_000_000}"/>',
    "open comment": HEAD + "<!--" + "<!-- " * 500_000,
    "open tags": HEAD + "<" * 3_000_000,
    "quotes": HEAD + "<FBType " + "a=\"" * 1_000_000,
    "parentheses": basic("SUM := " + "(" * 150_000),
    "signs": basic("SUM := " + "- " * 90_000 + "1;"),
    "nots": basic("ON := " + "NOT " * 40_000 + "QI;"),
    "time": basic("T := T#" + "1s_" * 60_000 + "x;"),
    "time of digits": basic("T := T#" + "1_" * 90_000 + "x;"),
    "open comments of a body": basic("(* " * 60_000),
    "quotes of a body": basic("' \" " * 40_000),
    "faults": basic("SUM := 1.5 + 'x' + FOO(2.5);\n" * 6_000),
    "long algorithm": basic("SUM := 1;\n" * 300_000),
    "condition": basic(condition="REQ[" + "(" * 100_000),
    "no UTF-8": HEAD.encode() + b'<FBType Name="\xff\xfe"/>',
    "half a character": HEAD.encode() + b'<FBType Name="\xc3',
    "UTF-7": b'<?xml version="1.0" encoding="UTF-7"?>\n+ADw-FBType Name+AD0AIg-A+ACIALwA+-',
    "unknown encoding": b'<?xml version="1.0" encoding="EBCDIC-FOO"?>\n<FBType Name="A"/>',
    "UTF-16 that is none": b'<?xml version="1.0" encoding="UTF-16"?>\n<FBType Name="A"/>',
    "half of UTF-16": b"\xff\xfe<\x00F\x00B\x00",
    "NUL": HEAD.encode() + b'<FBType Name="A\x00B"/>',
    "NUL as a reference": HEAD + '<FBType Name="A&#0;B"/>',
    "reference out of range": HEAD + '<FBType Name="A&#x110000;B"/>',
    "a half pair": HEAD + '<FBType Name="A&#xD800;B"/>',
    "nothing": "",
    "blanks": "\n \n",
    "no XML": "\x7fELF\x02\x01\x01",
    "two roots": HEAD + "<FBType Name='A'/><FBType Name='B'/>",
    "not closed": HEAD + "<FBType Name='A'>",
    "crossed": HEAD + "<FBType Name='A'><InterfaceList></FBType></InterfaceList>",
    "another root": HEAD + "<svg/>",
    "namespace": HEAD + '<FBType xmlns="http://example.org/" Name="A"/>',
    "include": HEAD
    + '<FBType Name="A" xmlns:xi="http://www.w3.org/2001/XInclude">'
    + '<xi:include href="/etc/passwd" parse="text"/></FBType>',
    "path as a name": system('<FB Name="../../x" Type="E_SR"/>'),
    "path as a type": system('<FB Name="X" Type="../../../etc/passwd"/>'),
    "path as a system": system("", name="../../up"),
    "cycles of connections": system("".join(f'<FB Name="F{it}" Type="E_SR"/>' for it in range(5_000))),
}


def measured(folder, *words):
    """Runs the importer in its own process. Returns status, output, seconds of processor time and the most memory."""
    environment = {**os.environ, "PYTHONPATH": str(TOP / "python" / "src")}
    with open(folder / "said", "wb") as said:
        child = subprocess.Popen(
            [sys.executable, "-B", "-m", "fbsim.importer", *words],
            cwd=folder,
            stderr=said,
            stdout=said,
            env=environment,
            preexec_fn=lambda: resource.setrlimit(resource.RLIMIT_CPU, (60, 60)),
        )
        _, status, used = os.wait4(child.pid, 0)
        child.returncode = os.waitstatus_to_exitcode(status)
    text = (folder / "said").read_text(errors="replace")
    return child.returncode, text, used.ru_utime + used.ru_stime, used.ru_maxrss * 1024


def everything_in(folder):
    return sorted(str(it.relative_to(folder)) for it in folder.rglob("*"))


@pytest.mark.parametrize("name", FILES)
def test_a_hostile_file_is_refused_in_time_and_memory(name, tmp_path):
    work = tmp_path / "work"
    work.mkdir()
    text = FILES[name]
    (work / "a.fbt").write_bytes(text if isinstance(text, bytes) else text.encode("utf-8", "surrogatepass"))
    (work / "said").touch()
    before = everything_in(tmp_path)
    status, said, seconds, memory = measured(work, "a.fbt", "--out", "out")
    assert status == 2, said[-1000:]
    assert said.startswith(("a.fbt:", "fbsim-import:")), said[:200]
    assert SECRET not in said and "Traceback" not in said and len(said) < 100_000
    assert everything_in(tmp_path) == before
    assert seconds < SECONDS and memory < BYTES, (seconds, memory)


def test_a_file_of_100_megabytes_is_refused_at_once(tmp_path):
    with open(tmp_path / "a.fbt", "wb") as file:
        file.write(HEAD.encode())
        file.truncate(100 * 10**6)
    status, said, seconds, memory = measured(tmp_path, "a.fbt", "--out", "out")
    assert (status, said) == (2, "a.fbt:1:1: a file has at most 4,194,304 bytes\n")
    assert seconds < SECONDS and memory < BYTES


@pytest.mark.parametrize(
    "make",
    [
        lambda it: it.mkdir(),
        lambda it: os.mkfifo(it),
        lambda it: it.symlink_to("/dev/zero"),
        lambda it: it.symlink_to(it),
        lambda it: None,
    ],
    ids=["folder", "pipe", "device", "loop", "missing"],
)
def test_what_is_no_file_has_status_3(make, tmp_path):
    make(tmp_path / "a.fbt")
    status, said, seconds, _ = measured(tmp_path, "a.fbt", "--out", "out")
    assert status == 3 and said.startswith("fbsim-import: a.fbt: ") and seconds < SECONDS, said
    assert not (tmp_path / "out").exists()


def test_a_hostile_library_is_only_read_where_it_is_used(tmp_path):
    files = {"lib/Bomb.fbt": LAUGHS, "lib/x/notes.txt": "x", "A.sys": system('<FB Name="F" Type="E_SR"/>')}
    done = import_all(tmp_path, files)
    assert done.status == 0, done.lines
    done = import_all(tmp_path / "three", {**files, "A.sys": system('<FB Name="F" Type="Bomb"/>')})
    assert done.lines == ["lib/Bomb.fbt:2:1: a DOCTYPE with declarations of its own is not accepted"]


# ---- Nothing is overwritten


def test_a_folder_with_files_is_not_written(tmp_path):
    (tmp_path / "out").mkdir()
    (tmp_path / "out" / "mine").write_text("kept")
    done = import_all(tmp_path, {"A.fbt": basic().replace("Adder", "A", 1)})
    assert done.status == 3 and done.lines == ["fbsim-import: out: this is no new or empty folder, and no folder that fbsim-import wrote"]
    assert everything_in(tmp_path) == ["A.fbt", "out", "out/mine"] and (tmp_path / "out" / "mine").read_text() == "kept"


def test_a_file_or_a_link_in_the_place_of_the_folder_is_kept(tmp_path):
    (tmp_path / "out").write_text("kept")
    done = import_all(tmp_path, {"Adder.fbt": basic()})
    assert done.status == 3 and (tmp_path / "out").read_text() == "kept"
    (tmp_path / "link").symlink_to("nowhere/at/all")
    done = import_all(tmp_path, {"Adder.fbt": basic()}, out="link")
    assert done.status == 3 and (tmp_path / "link").is_symlink()
    assert everything_in(tmp_path) == ["Adder.fbt", "link", "out"]


def test_an_empty_folder_is_filled_and_a_new_one_made(tmp_path):
    (tmp_path / "out").mkdir()
    done = import_all(tmp_path, {"Adder.fbt": basic()})
    assert done.status == 0 and everything_in(done.out) == ["application.iec", "deploy.toml", "import.txt", "map.json", "types.iec"]
    assert everything_in(tmp_path) == sorted(["Adder.fbt", "out", *(f"out/{it}" for it in everything_in(done.out))])
    done = import_all(tmp_path, {"Adder.fbt": basic()}, out="missing/out")
    assert done.status == 3 and not (tmp_path / "missing").exists()


def test_a_refused_import_leaves_an_empty_folder_empty(tmp_path):
    (tmp_path / "out").mkdir()
    done = import_all(tmp_path, {"Adder.fbt": basic("SUM := QI;")})
    assert done.status == 2 and everything_in(tmp_path) == ["Adder.fbt", "out"], done.lines


@pytest.mark.parametrize(
    "words", [["--latency", "0"], ["--latency", "1000001"], ["--latency", "x"], ["--nothing"], ["--lib"]]
)
def test_a_wrong_command_line_has_status_5(words, tmp_path):
    done = import_all(tmp_path, {"Adder.fbt": basic()}, *words)
    assert done.status == 5 and not done.out.exists()


def test_a_library_that_is_no_folder_has_status_3(tmp_path):
    done = import_all(tmp_path, {"Adder.fbt": basic()}, "--lib", "nowhere")
    assert done.status == 3 and done.lines == ["fbsim-import: nowhere: this is no folder"]


def test_a_program_that_is_missing_has_status_3(tmp_path, monkeypatch):
    monkeypatch.setenv("FBSIM", str(tmp_path / "none"))
    done = import_all(tmp_path, {"Adder.fbt": basic()})
    assert done.status == 3 and "FBSIM" in done.lines[0] and not done.out.exists()


def test_a_library_of_500_types_takes_less_than_5_seconds(tmp_path):
    body = "IF A > 3 THEN SUM := A * 2 + INT#1; ELSE SUM := B; END_IF;"
    files = {f"lib/T{it}.fbt": basic(body).replace('"Adder"', f'"T{it}"') for it in range(500)}
    network = "".join(f'<FB Name="I{it}" Type="T{it}"/>' for it in range(500))
    for name, text in {**files, "A.sys": system(network)}.items():
        (tmp_path / name).parent.mkdir(exist_ok=True)
        (tmp_path / name).write_text(text)
    # (another try where the machine was busy: its processor time is up to twice as long then)
    for number in range(4):
        status, said, seconds, _ = measured(tmp_path, "A.sys", "--lib", "lib", "--out", f"out{number}")
        assert (status, said) == (0, "accepted\n")
        assert (tmp_path / f"out{number}" / "types.iec").read_text().count("END_FUNCTION_BLOCK") == 500
        if seconds < SECONDS:
            return
    assert seconds < SECONDS
