"""What the tests of the importer use: imports of files that they write, and small files to change."""

from __future__ import annotations

import contextlib
import io
import re
import subprocess
from pathlib import Path
from typing import NamedTuple

from fbsim.importer.command import main
from fbsim.program import find_program

TOP = Path(__file__).resolve().parents[3]
PARCELS = TOP / "examples" / "xml" / "parcels"


class Imported(NamedTuple):
    """What an import came to."""

    status: int
    lines: list[str]
    out: Path

    def text(self, name):
        return (self.out / name).read_text()

    def declaration(self):
        """Returns types and application without blanks that mean nothing."""
        return re.sub(r"\s+", " ", self.text("types.iec") + self.text("application.iec"))

    def run(self, horizon, stimuli=None, status=0):
        """Returns the trace of the imported application. A run that ends in a stop has another status."""
        words = [find_program(), "run", "application.iec", "--types", "types.iec", "--deploy", "deploy.toml"]
        if stimuli is not None:
            (self.out / "stimuli.csv").write_text(stimuli)
            words += ["--stim", "stimuli.csv"]
        done = subprocess.run([*words, "--horizon", str(horizon)], cwd=self.out, capture_output=True, text=True)
        assert done.returncode == status, done.stderr
        return done.stdout

    def stop(self, horizon, stimuli):
        """Returns the trace of the imported application, which ends with a stop."""
        return self.run(horizon, stimuli, 1)


def import_all(folder, files, *words, out="out"):
    """Writes files, imports those at the top with those below `lib` as the library, and returns what came of it."""
    given = []
    for name, text in files.items():
        path = folder / name
        path.parent.mkdir(parents=True, exist_ok=True)
        path.write_bytes(text if isinstance(text, bytes) else text.encode())
        given += [name] if "/" not in name else []
    library = ["--lib", "lib"] if (folder / "lib").is_dir() else []
    said = io.StringIO()
    with contextlib.chdir(folder), contextlib.redirect_stderr(said), contextlib.redirect_stdout(said):
        try:
            status = main([*given, *library, "--out", out, *words])
        except SystemExit as end:
            status = end.code
    return Imported(status, said.getvalue().splitlines(), folder / out)


def place_of(text, part, nth=1):
    """Returns LINE:COLUMN of the nth time that a part is in a text, worked out by counting."""
    at = -1
    for _ in range(nth):
        at = text.index(part, at + 1)
    before = text[:at]
    return f"{before.count(chr(10)) + 1}:{at - (before.rfind(chr(10)) + 1) + 1}"


BASIC = """<?xml version="1.0" encoding="UTF-8"?>
<FBType Name="Adder" Comment="adds">
  <InterfaceList>
    <EventInputs><Event Name="REQ" Type="Event"><With Var="A"/><With Var="QI"/></Event></EventInputs>
    <EventOutputs><Event Name="CNF" Type="Event"><With Var="SUM"/></Event></EventOutputs>
    <InputVars><VarDeclaration Name="A" Type="INT"/><VarDeclaration Name="QI" Type="BOOL"/></InputVars>
    <OutputVars><VarDeclaration Name="SUM" Type="INT"/></OutputVars>
  </InterfaceList>
  <BasicFB>
    <InternalVars><VarDeclaration Name="B" Type="INT"/><VarDeclaration Name="ON" Type="BOOL"/>
      <VarDeclaration Name="T" Type="TIME"/></InternalVars>
    <ECC>
      <ECState Name="START"/>
      <ECState Name="ADD"><ECAction Algorithm="ADD" Output="CNF"/></ECState>
      <ECTransition Source="START" Destination="ADD" Condition="CONDITION"/>
      <ECTransition Source="ADD" Destination="START" Condition="1"/>
    </ECC>
    <Algorithm Name="ADD"><ST><![CDATA[BODY]]></ST></Algorithm>
  </BasicFB>
</FBType>
"""


def basic(body="SUM := A;", condition="REQ"):
    """Returns the type ADDER with this algorithm and this condition."""
    return BASIC.replace("BODY", body).replace("CONDITION", condition)


def service(name="Panel"):
    """Returns a service interface type."""
    return f"""<FBType Name="{name}">
  <InterfaceList>
    <EventInputs><Event Name="SHOW" Type="Event"><With Var="N"/></Event></EventInputs>
    <EventOutputs><Event Name="PRESSED" Type="Event"><With Var="KEY"/></Event></EventOutputs>
    <InputVars><VarDeclaration Name="N" Type="INT"/></InputVars>
    <OutputVars><VarDeclaration Name="KEY" Type="INT"/></OutputVars>
  </InterfaceList>
  <Service LeftInterface="APPLICATION" RightInterface="RESOURCE"/>
</FBType>
"""


def system(network, resources="", mapping="", name="App"):
    """Returns a system with the inside of an application's network."""
    return f"""<System Name="Sys">
  <Application Name="{name}"><FBNetwork>
{network}
  </FBNetwork></Application>
{resources}
{mapping}
</System>
"""


def resource(device, name, network=""):
    """Returns a device with one resource."""
    inside = f'<Resource Name="{name}" Type="EMB_RES"><FBNetwork>{network}</FBNetwork></Resource>'
    return f'<Device Name="{device}" Type="X">{inside}</Device>'


def connections(kind, *rows):
    """Returns connections of a kind, each like "A.EO B.EI"."""
    inside = "".join('<Connection Source="{}" Destination="{}"/>'.format(*row.split()) for row in rows)
    return f"<{kind}Connections>{inside}</{kind}Connections>"


def mappings(application, **places):
    """Returns mappings of instances to DEVICE.RESOURCE."""
    return "\n".join(f'<Mapping From="{application}.{it}" To="{where}.{it}"/>' for it, where in places.items())
