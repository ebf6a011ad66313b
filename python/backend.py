"""Makes a wheel of the package, as pip asks for it: a zip of its files, of the library that they call, and of what is told of them. It needs
nothing but Python, and the library, which `tools/build_c --shared` makes."""

import base64
import glob
import hashlib
import io
import os
import re
import sys
import sysconfig
import tarfile
import zipfile

HERE = os.path.dirname(os.path.abspath(__file__))
LIBRARY = "libminimate.so"
# The wheel has a library, so it is of the platform that it is made on.
PLATFORM = re.sub(r"[^A-Za-z0-9]", "_", sysconfig.get_platform())


def bytes_of(path):
    with open(path, "rb") as file:
        return file.read()


def found(pattern, *path):
    """What a file of this folder says by the pattern."""
    return re.search(pattern, bytes_of(os.path.join(HERE, *path)).decode(), flags=re.M)[1]


def package_files():
    """The package's files by their names."""
    paths = [it for kind in ("*.py", "py.typed") for it in glob.glob(os.path.join(HERE, "minimate", kind))]
    return {os.path.relpath(it, HERE): bytes_of(it) for it in sorted(paths)}


def find_library():
    """The path of the library: the one that MINIMATE_LIBRARY names, else that beside the package, else the clone's. Without one the build ends."""
    named = os.environ.get("MINIMATE_LIBRARY")
    if named:
        path = os.path.join(named, LIBRARY) if os.path.isdir(named) else named
        return path if os.path.isfile(path) else sys.exit(f"MINIMATE_LIBRARY names {named}, and there is no library")
    for folder in (os.path.join(HERE, "minimate"), os.path.join(os.path.dirname(HERE), "out")):
        if os.path.isfile(os.path.join(folder, LIBRARY)):
            return os.path.join(folder, LIBRARY)
    return sys.exit(f"found no {LIBRARY}: build it by tools/build_c --shared, or name it by MINIMATE_LIBRARY")


def told():
    """The version, and what is told of the package."""
    version = found(r'^__version__ = "(.+)"$', "minimate", "__init__.py")
    rows = {"Metadata-Version": "2.1", "Name": "minimate", "Version": version}
    for row, name in (("Summary", "description"), ("Requires-Python", "requires-python")):
        rows[row] = found(rf'^{name} = "(.+)"$', "pyproject.toml")
    rows["License"] = found(r'^license = { text = "(.+)" }$', "pyproject.toml")
    return version, "".join(f"{row}: {text}\n" for row, text in rows.items()).encode()


def write_wheel(folder, files, tag):
    """A wheel of these files, by its name in that folder; the same bytes each time."""
    version, metadata = told()
    info = f"minimate-{version}.dist-info"
    is_pure = str(tag.endswith("-any")).lower()
    wheel = f"Wheel-Version: 1.0\nGenerator: minimate\nRoot-Is-Purelib: {is_pure}\nTag: {tag}\n"
    files = {**files, f"{info}/METADATA": metadata, f"{info}/WHEEL": wheel.encode()}
    for path in sorted(glob.glob(os.path.join(os.path.dirname(HERE), "LICENSE-*"))):
        files[f"{info}/licenses/{os.path.basename(path)}"] = bytes_of(path)
    sums = {name: base64.urlsafe_b64encode(hashlib.sha256(data).digest()).rstrip(b"=").decode() for name, data in files.items()}
    record = "".join(f"{name},sha256={sums[name]},{len(data)}\n" for name, data in files.items())
    files[f"{info}/RECORD"] = f"{record}{info}/RECORD,,\n".encode()
    name = f"minimate-{version}-{tag}.whl"
    with zipfile.ZipFile(os.path.join(folder, name), "w", zipfile.ZIP_DEFLATED) as archive:
        for path, data in files.items():
            member = zipfile.ZipInfo(path)
            member.external_attr = 0o100644 << 16
            archive.writestr(member, data)
    return name


def build_wheel(wheel_directory, config_settings=None, metadata_directory=None):
    """The wheel of the package and the library, by its name in that folder."""
    files = {**package_files(), f"minimate/{LIBRARY}": bytes_of(find_library())}
    return write_wheel(wheel_directory, files, f"py3-none-{PLATFORM}")


def build_editable(wheel_directory, config_settings=None, metadata_directory=None):
    """The wheel of an installation in place: it names this folder, where the package finds the library that is there."""
    find_library()
    return write_wheel(wheel_directory, {"minimate.pth": os.fsencode(f"{HERE}\n")}, "py3-none-any")


def build_sdist(sdist_directory, config_settings=None):
    """The sources of the wheel, by the name of their archive in that folder. They have no library."""
    version, metadata = told()
    files = {**package_files(), "PKG-INFO": metadata}
    for name in ("pyproject.toml", os.path.basename(__file__)):
        files[name] = bytes_of(os.path.join(HERE, name))
    with tarfile.open(os.path.join(sdist_directory, f"minimate-{version}.tar.gz"), "w:gz", format=tarfile.PAX_FORMAT) as archive:
        for path, data in files.items():
            member = tarfile.TarInfo(f"minimate-{version}/{path}")
            member.size = len(data)
            archive.addfile(member, io.BytesIO(data))
    return f"minimate-{version}.tar.gz"
