"""The program that has BRiAl solve a file; it needs Debian's packages libbrial-dev and libbrial-groebner-dev."""

import pathlib
import shutil
import subprocess

SOURCE = pathlib.Path(__file__).resolve().parent / "brial_driver.cpp"


def driver(folder):
    """The driver's path in a folder, or None where BRiAl is not installed."""
    if not shutil.which("g++"):
        return None
    path = pathlib.Path(folder) / "brial"
    words = ["g++", "-O2", "-std=c++14", "-w", str(SOURCE), "-o", str(path), "-lbrial_groebner", "-lbrial", "-lm4ri"]
    built = subprocess.run(words, capture_output=True, check=False)
    return path if built.returncode == 0 else None
