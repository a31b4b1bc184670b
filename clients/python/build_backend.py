"""Builds the wheel and the source archive of ramp_client (PEP 517), with the standard library alone.

What pyproject.toml says of the project is one line each, as `name = "text"`; the version is that of ramp_client/__init__.py."""
import base64
import hashlib
import pathlib
import re
import tarfile
import zipfile

HERE = pathlib.Path(__file__).resolve().parent
PACKAGE = "ramp_client"
SCRIPT = "ramp-cli = ramp_client.cli:main"


def _told():
    """The project's lines, and its version."""
    section = (HERE / "pyproject.toml").read_text("utf-8").split("[project]\n")[1].split("\n[")[0]
    told = dict(re.findall(r'^([a-z-]+) = "(.*)"$', section, re.M))
    told["version"] = re.search(r'^__version__ = "(.*)"$', (HERE / PACKAGE / "__init__.py").read_text("utf-8"), re.M)[1]
    return told


def _files():
    return sorted(path for path in (HERE / PACKAGE).iterdir() if path.suffix == ".py" or path.name == "py.typed")


def _metadata(told):
    readme = HERE / told["readme"]
    text = readme.read_text("utf-8") if readme.exists() else ""
    return (f"Metadata-Version: 2.1\nName: {told['name']}\nVersion: {told['version']}\nSummary: {told['description']}\n"
            f"Requires-Python: {told['requires-python']}\nDescription-Content-Type: text/markdown\n\n{text}")


def build_wheel(wheel_directory, config_settings=None, metadata_directory=None):
    """Writes the wheel, and returns its name."""
    told = _told()
    base = f"{PACKAGE}-{told['version']}"
    notes = f"{base}.dist-info"
    contents = {f"{PACKAGE}/{path.name}": path.read_bytes() for path in _files()}
    contents[f"{notes}/METADATA"] = _metadata(told).encode()
    contents[f"{notes}/entry_points.txt"] = f"[console_scripts]\n{SCRIPT}\n".encode()
    contents[f"{notes}/WHEEL"] = b"Wheel-Version: 1.0\nGenerator: ramp-client\nRoot-Is-Purelib: true\nTag: py3-none-any\n"
    lines = [f"{name},sha256={base64.urlsafe_b64encode(hashlib.sha256(data).digest()).rstrip(b'=').decode()},{len(data)}\n" for name, data in contents.items()]
    contents[f"{notes}/RECORD"] = "".join([*lines, f"{notes}/RECORD,,\n"]).encode()
    name = f"{base}-py3-none-any.whl"
    with zipfile.ZipFile(pathlib.Path(wheel_directory) / name, "w", zipfile.ZIP_DEFLATED) as wheel:
        for path, data in contents.items():
            # The same time in each, so that equal sources give equal bytes.
            entry = zipfile.ZipInfo(path, (1980, 1, 1, 0, 0, 0))
            entry.external_attr = 0o644 << 16
            wheel.writestr(entry, data, zipfile.ZIP_DEFLATED)
    return name


def build_sdist(sdist_directory, config_settings=None):
    """Writes the source archive, and returns its name."""
    base = f"{PACKAGE}-{_told()['version']}"
    name = f"{base}.tar.gz"
    with tarfile.open(pathlib.Path(sdist_directory) / name, "w:gz", format=tarfile.PAX_FORMAT) as archive:
        for path in [HERE / "pyproject.toml", HERE / "build_backend.py", HERE / "README.md", *_files()]:
            if path.exists():
                archive.add(path, f"{base}/{path.relative_to(HERE)}")
    return name
