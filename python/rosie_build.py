"""Builds the package for pip with nothing but Python itself, so that it is installed without a network.

It is the backend that pyproject.toml names (PEP 517); what it says of the project stands there.
"""
import base64
import hashlib
import io
import os
import re
import tarfile
import zipfile

HERE = os.path.dirname(os.path.abspath(__file__))
# What is packed beside the modules.
MORE = (".py", ".typed", ".html")


def project():
    """The values of pyproject.toml that are needed here; Python 3.9 has no reader of such files."""
    with open(os.path.join(HERE, "pyproject.toml"), encoding="utf-8") as file:
        text = file.read()
    values = dict(re.findall(r'^([\w-]+) = "(.*)"$', text, re.MULTILINE))
    scripts = re.search(r"^\[project\.scripts\]\n((?:.+\n)*)", text, re.MULTILINE)
    values["scripts"] = scripts.group(1).replace('"', "") if scripts else ""
    with open(os.path.join(HERE, values["readme"]), encoding="utf-8") as file:
        values["page"] = file.read()
    return values


def metadata(values):
    """The text of the file METADATA."""
    lines = ["Metadata-Version: 2.1", f"Name: {values['name']}", f"Version: {values['version']}",
             f"Summary: {values['description']}", f"Requires-Python: {values['requires-python']}",
             "Description-Content-Type: text/markdown", "", values["page"]]
    return "\n".join(lines)


def sources(top):
    """The files of the package, by their names in it."""
    for folder, folders, names in os.walk(os.path.join(HERE, top)):
        folders[:] = sorted(name for name in folders if name != "__pycache__")
        for name in sorted(names):
            if name.endswith(MORE):
                path = os.path.join(folder, name)
                yield os.path.relpath(path, HERE), path


def stem(values):
    """How the files of this version are called."""
    return f"{values['name'].replace('-', '_')}-{values['version']}"


def build_wheel(wheel_directory, config_settings=None, metadata_directory=None):
    """Writes the wheel and returns its name."""
    values = project()
    info = stem(values) + ".dist-info"
    files = {}
    for name, path in sources("rosie"):
        with open(path, "rb") as file:
            files[name] = file.read()
    files[f"{info}/METADATA"] = metadata(values).encode()
    files[f"{info}/WHEEL"] = b"Wheel-Version: 1.0\nGenerator: rosie_build\nRoot-Is-Purelib: true\nTag: py3-none-any\n"
    files[f"{info}/entry_points.txt"] = f"[console_scripts]\n{values['scripts']}".encode()
    rows = []
    for name, text in files.items():
        digest = base64.urlsafe_b64encode(hashlib.sha256(text).digest()).rstrip(b"=").decode()
        rows.append(f"{name},sha256={digest},{len(text)}\n")
    files[f"{info}/RECORD"] = "".join([*rows, f"{info}/RECORD,,\n"]).encode()
    wheel = f"{stem(values)}-py3-none-any.whl"
    with zipfile.ZipFile(os.path.join(wheel_directory, wheel), "w", zipfile.ZIP_DEFLATED) as archive:
        for name, text in files.items():
            archive.writestr(zipfile.ZipInfo(name, (2024, 1, 1, 0, 0, 0)), text)
    return wheel


def build_sdist(sdist_directory, config_settings=None):
    """Writes the source archive and returns its name."""
    values = project()
    name = f"{stem(values)}.tar.gz"
    with tarfile.open(os.path.join(sdist_directory, name), "w:gz") as archive:
        for file in ("pyproject.toml", "rosie_build.py", "README.md"):
            archive.add(os.path.join(HERE, file), f"{stem(values)}/{file}")
        for file, path in sources("rosie"):
            archive.add(path, f"{stem(values)}/{file}")
        told = metadata(values).encode()
        member = tarfile.TarInfo(f"{stem(values)}/PKG-INFO")
        member.size = len(told)
        archive.addfile(member, io.BytesIO(told))
    return name
