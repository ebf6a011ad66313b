"""Packs files into an archive and a Debian package whose bytes depend on nothing else: neither on the clock, nor on who packs, nor where."""

import gzip
import hashlib
import io
import os
import tarfile
import tempfile
from typing import NamedTuple

import programs

PROGRAM, PLAIN = 0o755, 0o644


class File(NamedTuple):
    """A file to be packed, by its path below the top."""

    path: str
    data: bytes
    mode: int = PLAIN


class Link(NamedTuple):
    """A link to a name in its own folder."""

    path: str
    target: str


def zipped(data):
    """As `gzip -9n` does: without a name and a time."""
    return gzip.compress(data, 9, mtime=0)


def folders_of(items):
    """The folders that they lie in, each once."""
    found = set()
    for item in items:
        folder = os.path.dirname(item.path)
        while folder:
            found.add(folder)
            folder = os.path.dirname(folder)
    return found


# The archive


def member(path, epoch, kind, mode):
    """What the archive says of a file: no owner but root, and the one time."""
    said = tarfile.TarInfo(path)
    said.type, said.mode, said.mtime, said.uname, said.gname = kind, mode, epoch, "root", "root"
    return said


def archive(items, top, epoch):
    """A zipped archive of the files below the folder `top`, in the order of their paths."""
    rows = {top: member(top, epoch, tarfile.DIRTYPE, PROGRAM)}
    data = {}
    for folder in folders_of(items):
        rows[folder] = member(f"{top}/{folder}", epoch, tarfile.DIRTYPE, PROGRAM)
    for item in items:
        is_link = isinstance(item, Link)
        said = member(f"{top}/{item.path}", epoch, tarfile.SYMTYPE if is_link else tarfile.REGTYPE, 0o777 if is_link else item.mode)
        said.linkname, said.size = (item.target, 0) if is_link else ("", len(item.data))
        rows[item.path], data[item.path] = said, None if is_link else io.BytesIO(item.data)
    made = io.BytesIO()
    with tarfile.open(fileobj=made, mode="w", format=tarfile.GNU_FORMAT) as packed:
        for path in sorted(rows, key=lambda path: rows[path].name):
            packed.addfile(rows[path], data.get(path))
    return zipped(made.getvalue())


# The Debian package


def installed_size(items):
    """In KiB, as dpkg-gencontrol counts: a file's size rounded up, and one for what has none."""
    sizes = [1 if isinstance(item, Link) else -(-len(item.data) // 1024) for item in items]
    return sum(sizes) + len(folders_of(items))


def md5sums(items):
    rows = {item.path: hashlib.md5(item.data).hexdigest() for item in items if isinstance(item, File)}
    return "".join(f"{rows[path]}  {path}\n" for path in sorted(rows)).encode()


def lay_out(items, root, epoch):
    """Writes them below the folder `root`, with their modes and the one time, whatever the packer's mask is."""
    for item in items:
        path = os.path.join(root, item.path)
        os.makedirs(os.path.dirname(path), exist_ok=True)
        if isinstance(item, Link):
            os.symlink(item.target, path)
            continue
        with open(path, "wb") as file:
            file.write(item.data)
        os.chmod(path, item.mode)
    for folder, _, names in os.walk(root, topdown=False):
        for name in names:
            os.utime(os.path.join(folder, name), (epoch, epoch), follow_symlinks=False)
        os.chmod(folder, PROGRAM)
        os.utime(folder, (epoch, epoch))


def package(items, control, path, epoch):
    """Writes a Debian package: `control` has the files that tell dpkg of it. Its sums are added."""
    told = [File("DEBIAN/md5sums", md5sums(items)), *(File(f"DEBIAN/{name}", data) for name, data in control.items())]
    # One thread: how xz cuts the work among several is seen in the bytes.
    settings = {**os.environ, "SOURCE_DATE_EPOCH": str(epoch), "DPKG_DEB_THREADS_MAX": "1", "TZ": "UTC"}
    with tempfile.TemporaryDirectory() as room:
        root = os.path.join(room, "root")
        lay_out([*items, *told], root, epoch)
        ran = programs.run([programs.need("dpkg-deb"), "--root-owner-group", "-Zxz", "--build", root, path], timeout=600, env=settings)
    if ran.status != 0:
        programs.stop(f"dpkg-deb ended with status {ran.status}: {ran.error.decode(errors='replace')}")


def sums(paths):
    """What `sha256sum` says of the files, by their names alone."""
    rows = []
    for path in sorted(paths):
        with open(path, "rb") as file:
            rows.append(f"{hashlib.sha256(file.read()).hexdigest()}  {os.path.basename(path)}\n")
    return "".join(rows)
