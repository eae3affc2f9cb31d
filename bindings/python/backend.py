"""Packs the package and the shared library into a wheel, for pip and other tools that speak PEP 517 and PEP 660."""

import base64
import hashlib
import os
import sysconfig
import zipfile
from pathlib import Path
from typing import Any, Dict

HERE = Path(__file__).resolve().parent
PACKAGE = HERE / "stormhlaw"
LIBRARY = "libstormhlaw.so"
VERSION = (PACKAGE / "_version.py").read_text().split('"')[-2]
INFO = f"stormhlaw-{VERSION}.dist-info"
TAG = "py3-none-" + sysconfig.get_platform().replace("-", "_").replace(".", "_")

METADATA = f"""\
Metadata-Version: 2.1
Name: stormhlaw
Version: {VERSION}
Summary: A reading gate for X12 842 nonconformance reports whose verdicts are proved
Requires-Python: >=3.8
"""

WHEEL = f"""\
Wheel-Version: 1.0
Generator: stormhlaw
Root-Is-Purelib: false
Tag: {TAG}
"""


def build_wheel(wheel_directory: str, config_settings: Any = None, metadata_directory: Any = None) -> str:
    """A wheel with the package and the library in it."""
    sources = sorted(PACKAGE.glob("*.py")) + [PACKAGE / "py.typed"]
    contents = {f"stormhlaw/{source.name}": source.read_bytes() for source in sources}
    contents[f"stormhlaw/{LIBRARY}"] = _library().read_bytes()
    return _packed(wheel_directory, contents)


def build_editable(wheel_directory: str, config_settings: Any = None, metadata_directory: Any = None) -> str:
    """A wheel that leads to the package where it stands."""
    _library()
    return _packed(wheel_directory, {"stormhlaw.pth": f"{HERE}\n".encode()})


def build_sdist(sdist_directory: str, config_settings: Any = None) -> str:
    raise SystemExit("there is no source distribution: bindings/library builds the library from the whole repository")


def _library() -> Path:
    """The shared library: where STORMHLAW_LIB_DIR says, or where bindings/library writes it."""
    folder = Path(os.environ.get("STORMHLAW_LIB_DIR") or HERE.parent.parent / "target" / "lib")
    if not (folder / LIBRARY).exists():
        raise SystemExit(f"there is no {folder / LIBRARY}: run bindings/library first")
    return folder / LIBRARY


def _packed(folder: str, contents: Dict[str, bytes]) -> str:
    """Writes a wheel with these files, and gives its name. The same files give the same wheel."""
    contents = {**contents, f"{INFO}/METADATA": METADATA.encode(), f"{INFO}/WHEEL": WHEEL.encode()}
    record = "".join(f"{name},{_digest(data)},{len(data)}\n" for name, data in contents.items())
    contents[f"{INFO}/RECORD"] = f"{record}{INFO}/RECORD,,\n".encode()
    wheel = f"stormhlaw-{VERSION}-{TAG}.whl"
    with zipfile.ZipFile(Path(folder) / wheel, "w", zipfile.ZIP_DEFLATED) as archive:
        for name, data in contents.items():
            entry = zipfile.ZipInfo(name)
            entry.external_attr = 0o100644 << 16
            archive.writestr(entry, data, zipfile.ZIP_DEFLATED)
    return wheel


def _digest(data: bytes) -> str:
    """The digest of a file as RECORD has it."""
    return "sha256=" + base64.urlsafe_b64encode(hashlib.sha256(data).digest()).rstrip(b"=").decode()
