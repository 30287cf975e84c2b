"""Builds the wheel of pyvme: the package with libvme.so in it, and libvme_machine.so where its archive is built, for Linux on x86-64
with glibc. It needs make and cc alone.

A build backend of PEP 517, so `pip install ./examples/library/python` needs no registry. The same sources and compiler give
the same bytes."""

import base64
import hashlib
import subprocess
import tempfile
import zipfile
from pathlib import Path

HERE = Path(__file__).resolve().parent
ROOT = HERE.parent.parent.parent
TAG = "py3-none-manylinux_2_34_x86_64"
# The earliest time that a zip file has.
EPOCH = (1980, 1, 1, 0, 0, 0)


def shared_libraries() -> dict[str, bytes]:
    """The shared libraries by name, linked from the archives of the repository."""
    with tempfile.TemporaryDirectory() as folder:
        subprocess.run(["make", "-s", "-C", ROOT / "lib", f"OUT={folder}"], check=True)
        return {it.name: it.read_bytes() for it in sorted(Path(folder).glob("lib*.so.1"))}


def digest(text: bytes) -> str:
    return base64.urlsafe_b64encode(hashlib.sha256(text).digest()).rstrip(b"=").decode()


def build_wheel(wheel_directory: str, config_settings=None, metadata_directory=None) -> str:
    """Writes the wheel into a folder. Returns its name."""
    version = (ROOT / "VERSION").read_text(encoding="utf-8").strip()
    name = f"pyvme-{version}"
    info = f"{name}.dist-info"
    files = {f"pyvme/{it.name}": it.read_bytes() for it in sorted((HERE / "pyvme").glob("*.py"))}
    files |= {f"pyvme/{it}": text for it, text in shared_libraries().items()}
    files |= {f"{info}/licenses/{it}": (ROOT / it).read_bytes() for it in ("LICENSE-APACHE", "LICENSE-MIT")}
    files[f"{info}/METADATA"] = (
        f"Metadata-Version: 2.1\nName: pyvme\nVersion: {version}\nRequires-Python: >=3.9\n"
        "Summary: Boards, address maps and arbiters of the VMEbus, by libvme\nLicense: MIT OR Apache-2.0\n"
    ).encode()
    files[f"{info}/WHEEL"] = f"Wheel-Version: 1.0\nGenerator: pyvme\nRoot-Is-Purelib: false\nTag: {TAG}\n".encode()
    rows = [f"{it},sha256={digest(text)},{len(text)}\n" for it, text in files.items()]
    files[f"{info}/RECORD"] = "".join([*rows, f"{info}/RECORD,,\n"]).encode()
    made = f"{name}-{TAG}.whl"
    with zipfile.ZipFile(Path(wheel_directory) / made, "w") as out:
        for it, text in files.items():
            entry = zipfile.ZipInfo(it, EPOCH)
            entry.external_attr = 0o644 << 16
            out.writestr(entry, text, zipfile.ZIP_DEFLATED)
    return made
