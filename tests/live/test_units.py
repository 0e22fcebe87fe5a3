"""The units of systemd and the rules of udev, as these read them. Needs systemd and udev."""
from __future__ import annotations

import os
import re
import shutil
import subprocess
from pathlib import Path

import pytest

from program_and_rows import ROOT

LIMIT = 60
UNITS = sorted(ROOT.glob("package/systemd/*.service"))
COMMON = ROOT / "package/systemd/noriladle-.service.d"


def named(unit: Path, folder: Path) -> Path:
    """A copy of a unit; an instance of a template has a name, here that of a device. What it runs need not be installed."""
    copy = folder / unit.name.replace("@.", "@dev-ttyACM0.")
    copy.write_text(unit.read_text().replace("/usr/bin/noriladle ", f"{shutil.which('true')} "))
    shutil.copytree(COMMON, folder / COMMON.name)
    return copy


@pytest.mark.parametrize("unit", UNITS, ids=lambda unit: unit.name)
def test_unit(unit: Path, tmp_path: Path) -> None:
    copy = named(unit, tmp_path)
    ran = subprocess.run(["systemd-analyze", "verify", "--man=no", f"./{copy.name}"], cwd=tmp_path, capture_output=True, text=True)
    assert (ran.returncode, ran.stderr) == (0, "")


@pytest.mark.parametrize("unit", UNITS, ids=lambda unit: unit.name)
def test_security(unit: Path, tmp_path: Path) -> None:
    """At most 2.5 of 10."""
    copy = named(unit, tmp_path)
    ran = subprocess.run(["systemd-analyze", "security", "--offline=true", "--no-pager", "--threshold=25", f"./{copy.name}"], cwd=tmp_path,
                         capture_output=True, text=True)
    level = re.search(r"Overall exposure level for .*: ([0-9.]+) ", ran.stdout)
    assert ran.returncode == 0 and level and float(level[1]) <= 2.5, ran.stdout[-300:] + ran.stderr
    print(f"\n{unit.name}: exposure {level[1]}")


@pytest.mark.parametrize("unit", UNITS, ids=lambda unit: unit.name)
def test_what_a_unit_has(unit: Path) -> None:
    """Readiness, a watchdog, a user of its own, and a stop that lets the service end by itself."""
    lines = [line for file in (unit, *COMMON.iterdir()) for line in file.read_text().splitlines()]
    assert {"Type=notify", "DynamicUser=yes", "ProtectSystem=strict", "StartLimitIntervalSec=60"} <= set(lines)
    assert any(line.startswith("WatchdogSec=") for line in lines) and any(line.startswith("TimeoutStopSec=") for line in lines)
    if "scanner" not in unit.name:  # A scanner's program has no other beside it.
        assert "KillMode=mixed" in lines
    if "gateway" in unit.name:  # By the first it would see each other user as nobody, and by the second no other would reach its socket.
        assert "PrivateUsers=yes" not in lines and "RuntimeDirectoryPreserve=restart" not in lines


def test_rules() -> None:
    """As udev reads them; it reports each line that it does not accept."""
    if os.geteuid() or not os.access("/run", os.W_OK):
        pytest.skip("only root gives udev a rule to read")
    folder, device = Path("/run/udev/rules.d"), next(iter(sorted(Path("/sys/class/tty").iterdir())))

    def complaints(text: str) -> tuple[list[str], int]:
        folder.mkdir(parents=True, exist_ok=True)
        rules = folder / "70-noriladle-tested.rules"
        rules.write_text(text)
        try:
            ran = subprocess.run(["udevadm", "test", str(device)], capture_output=True, text=True)
        finally:
            rules.unlink()
        said = [line for line in (ran.stdout + ran.stderr).splitlines() if rules.name in line]
        return [line for line in said if not line.startswith("Reading rules file")], len(said)

    text = (ROOT / "package/70-noriladle-scanner.rules").read_text()
    assert complaints(text) == ([], 1)
    assert complaints(text + 'SUBSYSTEM=="tty", NO_SUCH_WORD="1"\n')[0]
