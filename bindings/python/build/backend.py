"""Builds the wheel of the package with the standard library alone, so that `pip install` of this folder needs neither network nor other packages.

The wheel takes the shared library along: the one that LEMIDROSY_LIBRARY names, or the one that bindings/build made in target/lemidrosy.
"""

import ast
import base64
import hashlib
import os
import re
import zipfile
from pathlib import Path

HERE = Path(__file__).resolve().parent.parent
PACKAGE = HERE / "lemidrosy"
LIBRARY = "liblemidrosy.so"
TAG = "py3-none-linux_x86_64"


def described():
    """What pyproject.toml says of the project: strings and lists of strings, one to a line."""
    project, table = {}, ""
    for line in (HERE / "pyproject.toml").read_text(encoding="utf-8").splitlines():
        heading = re.fullmatch(r"\[(.*)\]", line)
        field = re.fullmatch(r"([\w-]+) = (.*)", line)
        if heading:
            table = heading.group(1)
        elif field:
            project[f"{table}.{field.group(1)}"] = ast.literal_eval(field.group(2))
    return project


PROJECT = described()
NAME = PROJECT["project.name"]
VERSION = re.search(r'^__version__ = "(.*)"$', (PACKAGE / "__init__.py").read_text(encoding="utf-8"), re.M).group(1)
INFO = f"{NAME}-{VERSION}.dist-info"


def library():
    """The shared library that goes into the wheel."""
    named = os.environ.get("LEMIDROSY_LIBRARY")
    place = Path(named) if named else HERE.parents[1] / "target" / "lemidrosy" / "lib" / LIBRARY
    if not place.is_file():
        raise FileNotFoundError(f"there is no {place}: run bindings/build first, or name the library in LEMIDROSY_LIBRARY")
    return place


def information():
    """The files that describe the wheel."""
    metadata = [
        "Metadata-Version: 2.1",
        f"Name: {NAME}",
        f"Version: {VERSION}",
        f"Summary: {PROJECT['project.description']}",
        f"Requires-Python: {PROJECT['project.requires-python']}",
        "Description-Content-Type: text/markdown",
        "",
        (HERE / PROJECT["project.readme"]).read_text(encoding="utf-8"),
    ]
    scripts = [f"{key.split('.', 2)[2]} = {value}" for key, value in PROJECT.items() if key.startswith("project.scripts.")]
    return {
        "METADATA": "\n".join(metadata),
        "WHEEL": f"Wheel-Version: 1.0\nGenerator: lemidrosy\nRoot-Is-Purelib: false\nTag: {TAG}\n",
        "entry_points.txt": "\n".join(["[console_scripts]", *scripts, ""]),
    }


def written(folder, files):
    """A wheel of these files, with the list of them."""
    name = f"{NAME}-{VERSION}-{TAG}.whl"
    files = {**files, **{f"{INFO}/{part}": text.encode() for part, text in information().items()}}
    record = [f"{path},sha256={base64.urlsafe_b64encode(hashlib.sha256(data).digest()).decode().rstrip('=')},{len(data)}\n" for path, data in files.items()]
    files[f"{INFO}/RECORD"] = "".join([*record, f"{INFO}/RECORD,,\n"]).encode()
    with zipfile.ZipFile(Path(folder) / name, "w", zipfile.ZIP_DEFLATED) as wheel:
        for path, data in files.items():
            wheel.writestr(path, data)
    return name


def build_wheel(wheel_directory, config_settings=None, metadata_directory=None):
    """The package with its library."""
    sources = sorted(path for path in PACKAGE.rglob("*") if path.suffix in (".py", ".typed"))
    files = {path.relative_to(HERE).as_posix(): path.read_bytes() for path in sources}
    files[f"{NAME}/{LIBRARY}"] = library().read_bytes()
    return written(wheel_directory, files)


def build_editable(wheel_directory, config_settings=None, metadata_directory=None):
    """A file that points here: the package finds the library of the repository."""
    return written(wheel_directory, {f"{NAME}.pth": f"{HERE}\n".encode()})


def build_sdist(sdist_directory, config_settings=None):
    """There is none: the library is proved and built in the repository."""
    raise NotImplementedError("lemidrosy is built in its repository: see bindings/build")
