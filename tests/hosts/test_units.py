"""What the units of systemd and the configuration of haproxy may do and say, where no machine is made."""

import re
import subprocess

import pytest

from harness.hosting import UNITS
from repository import TOP

pytestmark = [pytest.mark.quick, pytest.mark.no_program]
EXPOSED = 20
"""Tenths of what systemd-analyze calls a unit's exposure: none has more."""


@pytest.mark.needs("systemd-analyze")
@pytest.mark.parametrize("unit", UNITS)
def test_what_a_unit_may_do(unit):
    path = TOP / "packaging" / "systemd" / unit
    done = subprocess.run(["systemd-analyze", "security", "--offline=yes", f"--threshold={EXPOSED}", "--no-pager", str(path)], capture_output=True, text=True)
    assert done.returncode == 0, (done.stdout + done.stderr)[-300:]


@pytest.mark.needs("systemd-analyze")
@pytest.mark.parametrize("unit", ["canvas@.service", "canvas-gateway.service"])
def test_a_unit_is_read(tmp_path, unit):
    target = tmp_path / unit.replace("@", "@poster")
    text = (TOP / "packaging" / "systemd" / unit).read_text()
    target.write_text(re.sub("^ExecStart=.*", "ExecStart=/bin/true", re.sub("^Documentation=.*", "", text, flags=re.M), flags=re.M))
    done = subprocess.run(["systemd-analyze", "verify", str(target)], capture_output=True, text=True)
    assert (done.returncode, done.stderr) == (0, "")


@pytest.mark.needs("haproxy", "openssl")
def test_the_configuration_of_haproxy(tmp_path):
    """With addresses of this machine, and a certificate in the place of the hosts'."""
    text, file, trusted = (TOP / "packaging" / "hosts" / "haproxy.cfg").read_text(), tmp_path / "haproxy.cfg", tmp_path / "hosts.crt"
    words = ["openssl", "req", "-x509", "-days", "2", "-subj", "/CN=hosts", "-newkey", "ec", "-pkeyopt", "ec_paramgen_curve:prime256v1", "-nodes"]
    subprocess.run([*words, "-keyout", tmp_path / "hosts.key", "-out", trusted], check=True, capture_output=True)
    text = re.sub(r"ssl crt \S+|h(?=[123]:)", lambda found: "127.0.0." if found[0] == "h" else "", text)
    file.write_text(re.sub(r"ca-file \S+", f"ca-file {trusted}", re.sub(r" crt \S+", "", text)))
    done = subprocess.run(["haproxy", "-c", "-f", file], capture_output=True, text=True)
    assert done.returncode == 0, done.stderr
