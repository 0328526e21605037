"""Makes the package that pip installs (PEP 517), by Python alone, so that nothing is fetched. It has the
library within, where there is one: the file that the environment variable SEWARQO_LIBRARY names, or
libsewarqo.so in the folder `sewarqo` here, or that of the release which this folder is in. Without one the
package finds the library when it is used.

The same files make the same bytes.
"""

import base64
import gzip
import hashlib
import io
import os
import re
import sys
import sysconfig
import tarfile
import zipfile
from pathlib import Path
from platform import machine

HERE = Path(__file__).resolve().parent
NAME = "sewarqo"
BEGUN = (1980, 1, 1, 0, 0, 0)  # (what a file's time is, since zip has none before)
# Where the library and the licence may be: here, or in the release that has this folder.
IS_RELEASED = HERE.parts[-4:] == ("share", "sewarqo", "bindings", "python")
LIBRARIES = [HERE / NAME / "libsewarqo.so"]
if IS_RELEASED:  # (Debian has the library in the folder of its processor)
    LIBRARIES += [HERE / "../../../../lib" / at / "libsewarqo.so" for at in (".", f"{machine()}-linux-gnu")]
LICENCES = [HERE / "LICENSE-MIT", HERE / ("../../../doc/sewarqo" if IS_RELEASED else "../..") / "LICENSE-MIT"]
METADATA = """Metadata-Version: 2.1
Name: sewarqo
Version: {version}
Summary: Compiler diagnostics, drawn over their sources
License: MIT
Requires-Python: >=3.8
"""
WHEEL = """Wheel-Version: 1.0
Generator: sewarqo
Root-Is-Purelib: {is_pure}
Tag: py3-none-{platform}
"""


def version():
    """The version that the package says."""
    (found,) = re.findall(r'^__version__ = "(.*)"$', (HERE / NAME / "__init__.py").read_text("utf-8"), re.M)
    return found


def first(paths):
    """The first of these files that is there, or None."""
    return next((path for path in paths if path.is_file()), None)


def library():
    """The file of the library, or None."""
    named = os.environ.get("SEWARQO_LIBRARY")
    if named and not Path(named).is_file():
        raise FileNotFoundError(f"SEWARQO_LIBRARY names no file: {named}")
    return Path(named) if named else first(LIBRARIES)


def sources():
    """The files of the package by their names in it, without the library."""
    paths = sorted([*(HERE / NAME).glob("*.py"), HERE / NAME / "py.typed"])
    return {f"{NAME}/{path.name}": path.read_bytes() for path in paths}


def metadata():
    return METADATA.format(version=version()).encode()


def licence():
    """The licence by its name, where it is there."""
    found = first(LICENCES)
    return {found.name: found.read_bytes()} if found else {}


def record(files, name):
    """The list of the files with their checksums, which is the file of this name."""
    def line(path, data):
        digest = base64.urlsafe_b64encode(hashlib.sha256(data).digest()).rstrip(b"=").decode()
        return f"{path},sha256={digest},{len(data)}\n"

    return "".join(line(path, data) for path, data in files.items()) + f"{name},,\n"


def zipped(files):
    """The files as a zip file."""
    out = io.BytesIO()
    with zipfile.ZipFile(out, "w", zipfile.ZIP_DEFLATED) as archive:
        for path, data in files.items():
            info = zipfile.ZipInfo(path, BEGUN)
            info.compress_type = zipfile.ZIP_DEFLATED
            info.external_attr = 0o100644 << 16
            archive.writestr(info, data)
    return out.getvalue()


def build_wheel(wheel_directory, config_settings=None, metadata_directory=None):
    """Makes the package in a folder, and returns its name."""
    files = sources()
    found = library()
    if found:
        files[f"{NAME}/libsewarqo.so"] = found.read_bytes()
    platform = re.sub(r"[-.]", "_", sysconfig.get_platform()) if found else "any"
    folder = f"{NAME}-{version()}.dist-info"
    files[f"{folder}/METADATA"] = metadata()
    files[f"{folder}/WHEEL"] = WHEEL.format(is_pure=str(not found).lower(), platform=platform).encode()
    files.update({f"{folder}/{path}": data for path, data in licence().items()})
    files[f"{folder}/RECORD"] = record(files, f"{folder}/RECORD").encode()
    name = f"{NAME}-{version()}-py3-none-{platform}.whl"
    (Path(wheel_directory) / name).write_bytes(zipped(files))
    return name


def build_sdist(sdist_directory, config_settings=None):
    """Makes an archive of the sources in a folder, without the library, and returns its name."""
    folder = f"{NAME}-{version()}"
    files = {"PKG-INFO": metadata(), **licence(), **sources()}
    files.update({path.name: path.read_bytes() for path in (HERE / "packing.py", HERE / "pyproject.toml")})
    out = io.BytesIO()
    with tarfile.open(fileobj=out, mode="w", format=tarfile.PAX_FORMAT) as archive:
        for path, data in files.items():
            info = tarfile.TarInfo(f"{folder}/{path}")
            info.size = len(data)
            archive.addfile(info, io.BytesIO(data))
    name = f"{folder}.tar.gz"
    (Path(sdist_directory) / name).write_bytes(gzip.compress(out.getvalue(), mtime=0))
    return name


if __name__ == "__main__":
    print(build_wheel(*sys.argv[1:]))
