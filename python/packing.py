"""Builds the wheel of this package, or puts its files into a folder: `python3 packing.py FOLDER`. It needs Python alone."""

import base64
import hashlib
import os
import sys
import tomllib
import zipfile

HERE = os.path.dirname(os.path.abspath(__file__))
PACKAGE = "verified_taskflow"
TAG = "py3-none-any"


def _project():
    with open(os.path.join(HERE, "pyproject.toml"), "rb") as file:
        return tomllib.load(file)["project"]


def _info(project):
    return "%s-%s.dist-info" % (project["name"].replace("-", "_"), project["version"])


def _read(*path):
    with open(os.path.join(HERE, *path), "rb") as file:
        return file.read()


def _metadata(project):
    lines = ["Metadata-Version: 2.1", "Name: " + project["name"], "Version: " + project["version"],
             "Summary: " + project["description"], "License: " + project["license"], "Requires-Python: " + project["requires-python"]]
    lines += ["Requires-Dist: " + one for one in project["dependencies"]]
    lines += ["Description-Content-Type: text/markdown", "", _read(project["readme"]).decode()]
    return "\n".join(lines).encode()


def _entry_points(project):
    groups = ("[%s]\n%s\n" % (group, "".join("%s = %s\n" % pair for pair in sorted(entries.items())))
              for group, entries in sorted(project["entry-points"].items()))
    return "".join(groups).encode()


def files():
    """The files of an installed package: pairs of a path in the folder of packages, and bytes."""
    project = _project()
    info = _info(project)
    names = sorted(name for name in os.listdir(os.path.join(HERE, PACKAGE)) if name.endswith(".py"))
    found = [("%s/%s" % (PACKAGE, name), _read(PACKAGE, name)) for name in names]
    found.append((PACKAGE + ".pth", _read(PACKAGE + ".pth")))
    found.append((info + "/METADATA", _metadata(project)))
    found.append((info + "/entry_points.txt", _entry_points(project)))
    found.append((info + "/top_level.txt", (PACKAGE + "\n").encode()))
    return found


def build_wheel(wheel_directory, config_settings=None, metadata_directory=None):
    """Writes the wheel into a folder, and gives its name (PEP 517)."""
    project = _project()
    info = _info(project)
    name = "%s-%s.whl" % (info[:-len(".dist-info")], TAG)
    found = files() + [(info + "/WHEEL", ("Wheel-Version: 1.0\nGenerator: packing\nRoot-Is-Purelib: true\nTag: %s\n" % TAG).encode())]
    record = "".join("%s,sha256=%s,%d\n" % (path, _digest(data), len(data)) for path, data in found)
    found.append((info + "/RECORD", (record + info + "/RECORD,,\n").encode()))
    with zipfile.ZipFile(os.path.join(wheel_directory, name), "w", zipfile.ZIP_DEFLATED) as wheel:
        for path, data in found:
            wheel.writestr(zipfile.ZipInfo(path, (2026, 1, 1, 0, 0, 0)), data)
    return name


def _digest(data):
    return base64.urlsafe_b64encode(hashlib.sha256(data).digest()).rstrip(b"=").decode()


def install(folder):
    """Puts the files into a folder of packages."""
    for path, data in files():
        place = os.path.join(folder, path)
        os.makedirs(os.path.dirname(place), exist_ok=True)
        with open(place, "wb") as file:
            file.write(data)


if __name__ == "__main__":
    install(sys.argv[1])
