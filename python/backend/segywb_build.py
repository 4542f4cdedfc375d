"""Builds the wheel, by the standard library alone, so that `pip install` loads nothing from elsewhere.

The shipped program stands in ``dist/`` of the repository, beside this folder, and is put into the wheel, with the man page of
the desk from ``man/``.
"""

import base64
import hashlib
import re
import zipfile
from pathlib import Path

PACKAGE = Path(__file__).resolve().parent.parent
TOP = PACKAGE.parent
NAME = "segywb-x86_64-linux"
TAG = "py3-none-linux_x86_64"


def told(key):
    """A text of pyproject.toml."""
    return re.search(rf'^{key} = "(.*)"$', (PACKAGE / "pyproject.toml").read_text(), re.M)[1]


def table(name):
    """The lines of a table of pyproject.toml: pairs of a word and what stands behind the sign."""
    part = (PACKAGE / "pyproject.toml").read_text().partition(f"[{name}]\n")[2].partition("\n[")[0]
    return re.findall(r"^([\w-]+) = (.*)$", part, re.M)


def metadata():
    """METADATA of the wheel."""
    lines = [
        "Metadata-Version: 2.1", f"Name: {told('name')}", f"Version: {told('version')}", f"Summary: {told('description')}",
        f"Requires-Python: {told('requires-python')}", "License: MIT OR Apache-2.0", "Description-Content-Type: text/markdown",
    ]
    for extra, words in table("project.optional-dependencies"):
        lines.append(f"Provides-Extra: {extra}")
        lines += [f'Requires-Dist: {word}; extra == "{extra}"' for word in re.findall(r'"(.*?)"', words)]
    return "\n".join(lines) + "\n\n" + (PACKAGE / "README.md").read_text()


def commands():
    """The commands that an installation makes."""
    found = [f"{name} = {text.strip(chr(34))}" for name, text in table("project.scripts")]
    return ["[console_scripts]", *found] if found else []


def modules():
    """The files of the package, and the program."""
    program = TOP / "dist" / NAME
    if not program.is_file():
        raise SystemExit(f"there is no program {program}: install the package from a clone of the repository")
    source = PACKAGE / "src"
    for path in sorted((source / "segywb").rglob("*")):
        if path.is_file() and "__pycache__" not in path.parts:
            yield path.relative_to(source).as_posix(), path.read_bytes(), 0o644
    yield f"segywb/{NAME}", program.read_bytes(), 0o755


def pages():
    """The man pages of the commands that an installation makes: in a venv `man` finds them beside the folder of its commands."""
    names = [line.split(" = ")[0] for line in commands()[1:]]
    paths = [TOP / "man" / f"{name}.1" for name in names]
    return [(f"segywb-{told('version')}.data/data/share/man/man1/{path.name}", path.read_bytes(), 0o644) for path in paths if path.is_file()]


def wheel(folder, files):
    """Writes a wheel of these files."""
    info = f"segywb-{told('version')}.dist-info"
    files = list(files)
    files.append((f"{info}/METADATA", metadata().encode(), 0o644))
    files.append((f"{info}/WHEEL", f"Wheel-Version: 1.0\nGenerator: segywb\nRoot-Is-Purelib: false\nTag: {TAG}\n".encode(), 0o644))
    if commands():
        files.append((f"{info}/entry_points.txt", ("\n".join(commands()) + "\n").encode(), 0o644))
    files += [(f"{info}/{path.name}", path.read_bytes(), 0o644) for path in sorted(TOP.glob("LICENSE*"))]
    files += pages()
    record = [f"{name},sha256={digest(data)},{len(data)}" for name, data, _ in files]
    files.append((f"{info}/RECORD", "\n".join([*record, f"{info}/RECORD,,", ""]).encode(), 0o644))
    name = f"segywb-{told('version')}-{TAG}.whl"
    with zipfile.ZipFile(Path(folder) / name, "w", zipfile.ZIP_DEFLATED) as made:
        for path, data, mode in files:
            entry = zipfile.ZipInfo(path, (2020, 1, 1, 0, 0, 0))
            entry.external_attr = (0o100000 | mode) << 16
            entry.compress_type = zipfile.ZIP_DEFLATED
            made.writestr(entry, data)
    return name


def digest(data):
    """The hash as a wheel records it."""
    return base64.urlsafe_b64encode(hashlib.sha256(data).digest()).rstrip(b"=").decode()


def build_wheel(wheel_directory, config_settings=None, metadata_directory=None):
    """The wheel."""
    return wheel(wheel_directory, modules())


def build_editable(wheel_directory, config_settings=None, metadata_directory=None):
    """A wheel that points to the sources; the program is then that of ``dist/``."""
    return wheel(wheel_directory, [("segywb.pth", f"{PACKAGE / 'src'}\n".encode(), 0o644)])


def build_sdist(sdist_directory, config_settings=None):
    """There is none: the program stands outside of this folder."""
    raise SystemExit("there is no source package: install from a clone of the repository")
