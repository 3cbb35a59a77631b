"""Builds the wheel and the source archive of the package (PEP 517), with Python alone. The same sources give the same bytes.

Its working folder is that of pyproject.toml, whose [project] has a line for each value: a text, or a list of texts in brackets."""

import base64
import gzip
import hashlib
import io
import json
import re
import tarfile
import zipfile
from pathlib import Path

# The earliest time that a wheel can have, and the same for a source archive, in seconds.
EARLIEST = (1980, 1, 1, 0, 0, 0)
EARLIEST_SECONDS = 315532800
MODE = 0o644


def project():
    """The values of [project]."""
    part = re.search(r"^\[project\]\n(.*?)(?=^\[|\Z)", Path("pyproject.toml").read_text("utf-8"), re.M | re.S)[1]
    return {name: json.loads(value) for name, value in re.findall(r"^([\w-]+) = (.*)$", part, re.M)}


def modules():
    """The files of the package, as paths from the folder on."""
    package = Path(project()["name"])
    return sorted(it for it in package.rglob("*") if it.suffix == ".py" or it.name == "py.typed")


def metadata():
    """What METADATA and PKG-INFO say."""
    own = project()
    lines = [
        "Metadata-Version: 2.1",
        f"Name: {own['name']}",
        f"Version: {own['version']}",
        f"Summary: {own['description']}",
        *(f"Classifier: {it}" for it in own["classifiers"]),
        f"Requires-Python: {own['requires-python']}",
        "Description-Content-Type: text/markdown",
        "",
        Path(own["readme"]).read_text("utf-8"),
    ]
    return "\n".join(lines).encode()


def record_line(path, data):
    """The line of RECORD on a file."""
    digest = base64.urlsafe_b64encode(hashlib.sha256(data).digest()).rstrip(b"=").decode()
    return f"{path},sha256={digest},{len(data)}\n"


def build_wheel(wheel_directory, config_settings=None, metadata_directory=None):
    """Writes the wheel into the folder, and returns its file name."""
    own = project()
    release = f"{own['name']}-{own['version']}"
    files = {it.as_posix(): it.read_bytes() for it in modules()}
    files[f"{release}.dist-info/METADATA"] = metadata()
    files[f"{release}.dist-info/WHEEL"] = b"Wheel-Version: 1.0\nGenerator: acpiset\nRoot-Is-Purelib: true\nTag: py3-none-any\n"
    record = f"{release}.dist-info/RECORD"
    lines = [record_line(path, data) for path, data in files.items()]
    files[record] = "".join([*lines, f"{record},,\n"]).encode()
    name = f"{release}-py3-none-any.whl"
    with zipfile.ZipFile(Path(wheel_directory, name), "w", zipfile.ZIP_DEFLATED) as wheel:
        for path, data in files.items():
            entry = zipfile.ZipInfo(path, EARLIEST)
            entry.compress_type = zipfile.ZIP_DEFLATED
            entry.external_attr = (0o100000 | MODE) << 16
            wheel.writestr(entry, data)
    return name


def build_sdist(sdist_directory, config_settings=None):
    """Writes the archive of sources into the folder, and returns its file name."""
    own = project()
    release = f"{own['name']}-{own['version']}"
    files = {it.as_posix(): it.read_bytes() for it in (Path("pyproject.toml"), Path(own["readme"]), *sorted(Path("backend").glob("*.py")))}
    files.update({it.as_posix(): it.read_bytes() for it in modules()})
    files["PKG-INFO"] = metadata()
    name = f"{release}.tar.gz"
    with gzip.GzipFile(Path(sdist_directory, name), "wb", mtime=0) as packed:
        with tarfile.open(fileobj=packed, mode="w", format=tarfile.PAX_FORMAT) as archive:
            for path, data in files.items():
                entry = tarfile.TarInfo(f"{release}/{path}")
                entry.size, entry.mode, entry.mtime = len(data), MODE, EARLIEST_SECONDS
                archive.addfile(entry, io.BytesIO(data))
    return name
