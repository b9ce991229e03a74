"""wheel.py VERSION LIBRARY FOLDER: packs the package and the shared object in a wheel in FOLDER.

It is what pyproject.toml names too, so that pip builds one by itself, of what make has built.

It needs nothing but Python and nm. The wheel is for each Python 3.9 and later, and for each Linux
on x86-64 whose C library is as new as the library needs, by the output of nm. The same files
make the same wheel.
"""
from __future__ import annotations

import base64
import hashlib
import re
import subprocess
import sys
import zipfile
from pathlib import Path

HERE = Path(__file__).resolve().parent

#: The oldest glibc that a wheel of today is for.
OLDEST = (2, 17)

METADATA = """\
Metadata-Version: 2.1
Name: nuzolged
Version: {version}
Summary: A POSIX file tree in memory, under nested transactions
Requires-Python: >=3.9
Classifier: Operating System :: POSIX :: Linux
Classifier: Typing :: Typed
Description-Content-Type: text/markdown

{readme}"""

WHEEL = """\
Wheel-Version: 1.0
Generator: wheel.py
Root-Is-Purelib: false
Tag: {tag}
"""

ENTRY_POINTS = """\
[fsspec.specs]
nuzolged = nuzolged.fsspec:NuzolgedFileSystem

[pytest11]
nuzolged = nuzolged.pytest_plugin
"""


def tag_of(library: Path) -> str:
    """The tag of a wheel with a shared object: by the newest glibc of which that needs a symbol."""
    told = subprocess.run(["nm", "-D", library], check=True, capture_output=True, text=True)
    needed = {(int(a), int(b)) for a, b in re.findall(r"@GLIBC_(\d+)\.(\d+)", told.stdout)}
    major, minor = max(needed | {OLDEST})
    return f"py3-none-manylinux_{major}_{minor}_x86_64"


def files_of(version: str, library: Path, tag: str) -> dict[str, bytes]:
    """The files of the wheel, except the list of them."""
    package = sorted((HERE / "nuzolged").glob("*.py")) + [HERE / "nuzolged" / "py.typed"]
    files = {f"nuzolged/{file.name}": file.read_bytes() for file in package}
    files["nuzolged/libnuzolged.so.1"] = library.read_bytes()
    readme = (HERE / "README.md").read_text()
    info = f"nuzolged-{version}.dist-info"
    files[f"{info}/METADATA"] = METADATA.format(version=version, readme=readme).encode()
    files[f"{info}/WHEEL"] = WHEEL.format(tag=tag).encode()
    files[f"{info}/entry_points.txt"] = ENTRY_POINTS.encode()
    return files


def record(name: str, data: bytes) -> str:
    """The line of a file in the list of them."""
    digest = base64.urlsafe_b64encode(hashlib.sha256(data).digest()).rstrip(b"=").decode()
    return f"{name},sha256={digest},{len(data)}\n"


def build_wheel(
    wheel_directory: str, config_settings: object = None, metadata_directory: object = None
) -> str:
    """Builds the wheel for pip, and returns the name of its file."""
    library = HERE.parent / "out" / "libnuzolged.so.1"
    if not library.is_file():
        sys.exit(f"there is no {library}: build it by make -C bindings")
    version = re.search(r'__version__ = "(.*)"', (HERE / "nuzolged" / "__init__.py").read_text())
    assert version
    return main(version[1], library, Path(wheel_directory))


def main(version: str, library: Path, folder: Path) -> str:
    tag = tag_of(library)
    files = files_of(version, library, tag)
    listed = f"nuzolged-{version}.dist-info/RECORD"
    lines = [record(name, data) for name, data in files.items()] + [f"{listed},,\n"]
    files[listed] = "".join(lines).encode()
    name_of_file = f"nuzolged-{version}-{tag}.whl"
    with zipfile.ZipFile(folder / name_of_file, "w") as wheel:
        for name, data in files.items():
            wheel.writestr(zipfile.ZipInfo(name), data, zipfile.ZIP_DEFLATED)
    return name_of_file


if __name__ == "__main__":
    if len(sys.argv) != 4:
        sys.exit("usage: wheel.py VERSION LIBRARY FOLDER")
    main(sys.argv[1], Path(sys.argv[2]), Path(sys.argv[3]))
