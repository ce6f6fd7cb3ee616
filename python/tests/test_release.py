"""The release, unpacked into clean folders and tried there with nothing else in sight."""

import os
import shutil
import subprocess
import sys
import tarfile

import pytest
from conftest import TOP

pytestmark = [
    pytest.mark.program,
    pytest.mark.skipif(not os.path.isdir(os.path.join(TOP, "tools")), reason="tools/ isn't there"),
]
ROWS = "customer,paid\nAnna,500\nBob,200\n"


def call(words, folder, **environment):
    """Runs words in a folder, with an environment of its own."""
    clean = {"PATH": "/usr/bin:/bin", "LC_ALL": "C.UTF-8", "PYTHONDONTWRITEBYTECODE": "1", **environment}
    return subprocess.run(words, cwd=folder, env=clean, stdout=subprocess.PIPE, check=True).stdout.decode()


@pytest.fixture(scope="module")
def release(tmp_path_factory):
    to = tmp_path_factory.mktemp("release")
    words = [sys.executable, os.path.join(TOP, "tools", "release.py"), "--to", str(to), "--program", os.environ["LISKEVAR_PROGRAM"]]
    return subprocess.run(words, stdout=subprocess.PIPE, check=True).stdout.decode().split()


def tried(folder, call_path, package, docs):
    """The README's commands, by an installed program."""
    files = [os.path.join(docs, "examples", it) for it in ("orders.csv", "payments.csv")]
    with open(os.path.join(docs, "examples", "first_join.json"), "rb") as file:
        first = subprocess.run([call_path, "run"], stdin=file, stdout=subprocess.PIPE, check=True).stdout.decode()
    assert first.startswith('["order","amount","amount_paid"]\n[1001,500,500]\n')
    words = [sys.executable, "-m", "liskevar", "join", *files, "--on", "order,part", "--columns", "customer,paid", "--sort", "paid:desc"]
    path = os.path.dirname(call_path) + ":/usr/bin:/bin"
    assert call([*words, "--csv"], folder, PYTHONPATH=package, PATH=path).startswith(ROWS)
    assert "commit: " in open(os.path.join(docs, "BUILT"), encoding="utf-8").read()


def test_the_tar_file(release, tmp_path):
    path = next(it for it in release if it.endswith(".tar.xz"))
    with tarfile.open(path) as file:
        file.extractall(tmp_path)
    (top,) = tmp_path.iterdir()
    call(["sha256sum", "-c", "--quiet", "SHA256SUMS"], top)
    tried(tmp_path, str(top / "bin" / "liskevar"), str(top / "python"), str(top))


def test_the_deb(release, tmp_path):
    if shutil.which("dpkg-deb") is None:
        pytest.skip("dpkg-deb isn't there")
    path = next(it for it in release if it.endswith(".deb"))
    call(["dpkg-deb", "-x", path, str(tmp_path)], tmp_path)
    assert "Package: liskevar" in call(["dpkg-deb", "-I", path], tmp_path)
    docs = tmp_path / "usr/share/doc/liskevar"
    call(["sha256sum", "-c", "--quiet", str(docs / "SHA256SUMS")], tmp_path)
    tried(tmp_path, str(tmp_path / "usr/bin/liskevar"), str(tmp_path / "usr/lib/python3/dist-packages"), str(docs))


def test_checksums_beside_them(release):
    call(["sha256sum", "-c", "--quiet", "SHA256SUMS"], os.path.dirname(release[0]))
