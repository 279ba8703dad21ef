"""Builds the wheel of the module by Python alone, so that `pip install` needs neither a network nor the package `wheel`.

The hooks are those that pip calls (PEP 517): `build_wheel` and `build_sdist`. The wheel has the files of the folder `mdsal`.
"""
import base64
import hashlib
import io
import os
import tarfile
import tomllib
import zipfile

HERE = os.path.dirname(os.path.abspath(__file__))
WHEEL = "Wheel-Version: 1.0\nGenerator: mdsal\nRoot-Is-Purelib: true\nTag: py3-none-any\n"
EPOCH = (2020, 1, 1, 0, 0, 0)


def project() -> dict:
    """Returns the table `project` of pyproject.toml."""
    with open(f"{HERE}/pyproject.toml", "rb") as file:
        return tomllib.load(file)["project"]


def metadata() -> str:
    it = project()
    return f"Metadata-Version: 2.1\nName: {it['name']}\nVersion: {it['version']}\nSummary: {it['description']}\nRequires-Python: {it['requires-python']}\n"


def modules() -> dict[str, bytes]:
    """Returns the module's files, by their names in the wheel."""
    found = {}
    for name in sorted(os.listdir(f"{HERE}/mdsal")):
        if name.endswith((".py", ".typed")):
            with open(f"{HERE}/mdsal/{name}", "rb") as file:
                found[f"mdsal/{name}"] = file.read()
    return found


def build_wheel(wheel_directory: str, config_settings: dict | None = None, metadata_directory: str | None = None) -> str:
    info = f"mdsal-{project()['version']}.dist-info"
    files = {**modules(), f"{info}/METADATA": metadata().encode(), f"{info}/WHEEL": WHEEL.encode()}
    sums = {name: base64.urlsafe_b64encode(hashlib.sha256(data).digest()).rstrip(b"=").decode() for name, data in files.items()}
    record = "".join(f"{name},sha256={sums[name]},{len(data)}\n" for name, data in files.items()) + f"{info}/RECORD,,\n"
    made = f"mdsal-{project()['version']}-py3-none-any.whl"
    with zipfile.ZipFile(f"{wheel_directory}/{made}", "w", zipfile.ZIP_DEFLATED) as archive:
        for name, data in {**files, f"{info}/RECORD": record.encode()}.items():
            archive.writestr(zipfile.ZipInfo(name, EPOCH), data)
    return made


def build_sdist(sdist_directory: str, config_settings: dict | None = None) -> str:
    base = f"mdsal-{project()['version']}"
    files = {**modules(), "PKG-INFO": metadata().encode()}
    for name in ("pyproject.toml", "backend.py"):
        with open(f"{HERE}/{name}", "rb") as file:
            files[name] = file.read()
    with tarfile.open(f"{sdist_directory}/{base}.tar.gz", "w:gz") as archive:
        for name, data in files.items():
            entry = tarfile.TarInfo(f"{base}/{name}")
            entry.size = len(data)
            archive.addfile(entry, io.BytesIO(data))
    return f"{base}.tar.gz"
