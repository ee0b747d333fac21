"""Makes the package of this folder for pip, as `pip install ./tools` asks for it. It needs nothing but Python."""

import base64
import hashlib
import io
import pathlib
import tarfile
import zipfile

from leastanf.__main__ import COMMANDS

HERE = pathlib.Path(__file__).resolve().parent
NAME, VERSION = "leastanf", "0.1.0"
SUMMARY = "Least Boolean polynomials of PLA files, tables and lists of points, by the proved programs interp and nfq"

METADATA = f"Metadata-Version: 2.1\nName: {NAME}\nVersion: {VERSION}\nSummary: {SUMMARY}\nRequires-Python: >=3.9\n"
# A command. Python itself ends where its standard input is a folder, so there it is closed.
SCRIPT = """#!/bin/sh
[ -d /dev/stdin ] && exec <&-
exec "$(dirname "$(readlink -f "$0")")/{package}" {command} "$@"
"""

WHEEL = f"Wheel-Version: 1.0\nGenerator: {NAME}\nRoot-Is-Purelib: true\nTag: py3-none-any\n"


def build_wheel(wheel_directory, config_settings=None, metadata_directory=None):
    """Writes the package as a wheel to a folder, and gives the name of the file. The settings have no effect."""
    del config_settings, metadata_directory
    about = f"{NAME}-{VERSION}.dist-info"
    texts = {f"{about}/METADATA": METADATA, f"{about}/WHEEL": WHEEL}
    texts[f"{about}/entry_points.txt"] = f"[console_scripts]\n{NAME} = {NAME}.__main__:main\n"
    scripts = f"{NAME}-{VERSION}.data/scripts"
    texts.update((f"{scripts}/{command}", SCRIPT.format(package=NAME, command=command)) for command in COMMANDS)
    files = {path: text.encode() for path, text in texts.items()}
    files.update({str(path.relative_to(HERE)): path.read_bytes() for path in sources()})
    record = "".join(f"{path},sha256={digest(data)},{len(data)}\n" for path, data in files.items())
    files[f"{about}/RECORD"] = f"{record}{about}/RECORD,,\n".encode()
    name = f"{NAME}-{VERSION}-py3-none-any.whl"
    with zipfile.ZipFile(pathlib.Path(wheel_directory) / name, "w") as wheel:
        for path, data in files.items():
            entry = zipfile.ZipInfo(path)
            entry.compress_type = zipfile.ZIP_DEFLATED
            entry.external_attr = (0o100755 if path.startswith(scripts) else 0o100644) << 16
            wheel.writestr(entry, data)
    return name


def build_sdist(sdist_directory, config_settings=None):
    """Writes the sources as an archive to a folder, and gives the name of the file. The settings have no effect."""
    del config_settings
    top = f"{NAME}-{VERSION}"
    with tarfile.open(pathlib.Path(sdist_directory) / f"{top}.tar.gz", "w:gz") as archive:
        for path in [HERE / "pyproject.toml", pathlib.Path(__file__).resolve(), *sources()]:
            archive.add(path, f"{top}/{path.relative_to(HERE)}")
        about = tarfile.TarInfo(f"{top}/PKG-INFO")
        about.size = len(METADATA)
        archive.addfile(about, io.BytesIO(METADATA.encode()))
    return f"{top}.tar.gz"


def sources():
    """The modules of the package."""
    return sorted((HERE / NAME).rglob("*.py"))


def digest(data):
    """The digest of a file as a record of a wheel has it."""
    return base64.urlsafe_b64encode(hashlib.sha256(data).digest()).rstrip(b"=").decode()
