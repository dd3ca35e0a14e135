"""Builds the client for pip, and the gateway with it, with the standard library alone: a wheel is a
zip file with four files of metadata.

pip calls these functions, as pyproject.toml says. So `pip install ./clients` needs no network and
no other package.
"""
from __future__ import annotations

import base64
import hashlib
import io
import pathlib
import re
import tarfile
import zipfile
from typing import Any, Dict, Iterable, List, Optional, Tuple

HERE = pathlib.Path(__file__).resolve().parent
PACKAGES = ("estserve_client", "estserve_team")
PLACES = (HERE, HERE.parent / "gateway")  # an archive of the sources has both in one folder
WHEEL = "Wheel-Version: 1.0\nGenerator: build_wheel.py\nRoot-Is-Purelib: true\nTag: py3-none-any\n"
COMMANDS = "[console_scripts]\nestserve-client = estserve:installed\n"
METADATA = """Metadata-Version: 2.1
Name: estserve-client
Version: {}
Summary: The client of estserve, a shared simulator for Pure Esterel programs
License: MIT OR Apache-2.0
Requires-Python: >=3.9
"""
Entry = Tuple[str, bytes]


def version() -> str:
    """The client's version."""
    text = (HERE / "estserve_client" / "__init__.py").read_text(encoding="utf-8")
    found = re.search(r'^__version__ = "(.+)"$', text, re.MULTILINE)
    assert found, "estserve_client has no version"
    return found[1]


def folders() -> List[pathlib.Path]:
    """Where the packages lie. One that is not there is an error, so that no wheel lacks it."""
    found: List[pathlib.Path] = []
    for name in PACKAGES:
        place = next((place for place in PLACES if (place / name).is_dir()), None)
        if place is None:
            raise FileNotFoundError(
                f"{name} is not beside {HERE}: a pip before 21.3 builds from a copy of this folder"
                " alone; give it --use-feature=in-tree-build"
            )
        found.append(place / name)
    return found


def sources() -> List[Entry]:
    """The files of the client and the gateway, by their names in the wheel."""
    entries = [("estserve.py", (HERE / "estserve.py").read_bytes())]
    for folder in folders():
        for path in sorted(folder.rglob("*")):
            if path.is_file() and "__pycache__" not in path.parts:
                name = path.relative_to(folder.parent).as_posix()
                entries.append((name, path.read_bytes()))
    return entries


def metadata() -> List[Entry]:
    """What pip is told of the client, but for the list of all files."""
    folder = f"estserve_client-{version()}.dist-info"
    texts = {"METADATA": METADATA.format(version()), "WHEEL": WHEEL, "entry_points.txt": COMMANDS}
    return [(f"{folder}/{name}", text.encode()) for name, text in texts.items()]


def digest_of(data: bytes) -> str:
    return base64.urlsafe_b64encode(hashlib.sha256(data).digest()).rstrip(b"=").decode()


def write_wheel(directory: str, entries: Iterable[Entry]) -> str:
    """Writes a wheel of these files and the metadata. Answers its name."""
    files = [*entries, *metadata()]
    record = f"estserve_client-{version()}.dist-info/RECORD"
    lines = [f"{name},sha256={digest_of(data)},{len(data)}\n" for name, data in files] + [
        f"{record},,\n"
    ]
    name = f"estserve_client-{version()}-py3-none-any.whl"
    with zipfile.ZipFile(pathlib.Path(directory) / name, "w", zipfile.ZIP_DEFLATED) as wheel:
        for inner, data in [*files, (record, "".join(lines).encode())]:
            wheel.writestr(inner, data)
    return name


def get_requires_for_build_wheel(settings: Optional[Dict[str, Any]] = None) -> List[str]:
    """What is needed besides: nothing."""
    return []


get_requires_for_build_editable = get_requires_for_build_sdist = get_requires_for_build_wheel


def build_wheel(
    directory: str, settings: Optional[Dict[str, Any]] = None, made: Optional[str] = None
) -> str:
    """Writes the wheel into this folder. Answers its name."""
    return write_wheel(directory, sources())


def build_editable(
    directory: str, settings: Optional[Dict[str, Any]] = None, made: Optional[str] = None
) -> str:
    """Writes a wheel that leads to these very folders, for `pip install -e`. Answers its name."""
    lines = dict.fromkeys(f"{folder.parent}\n" for folder in folders())
    return write_wheel(directory, [("estserve_client.pth", "".join(lines).encode())])


def build_sdist(directory: str, settings: Optional[Dict[str, Any]] = None) -> str:
    """Writes an archive of the sources into this folder. Answers its name."""
    base = f"estserve_client-{version()}"
    files = [*sources(), ("PKG-INFO", METADATA.format(version()).encode())]
    files += [(name, (HERE / name).read_bytes()) for name in ("pyproject.toml", "build_wheel.py")]
    with tarfile.open(pathlib.Path(directory) / f"{base}.tar.gz", "w:gz") as archive:
        for name, data in files:
            told = tarfile.TarInfo(f"{base}/{name}")
            told.size = len(data)
            archive.addfile(told, io.BytesIO(data))
    return f"{base}.tar.gz"
