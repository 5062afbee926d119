"""Writes packages: trees of files as Debian packages and as a tar archive. The same files give the
same bytes."""
from __future__ import annotations

import dataclasses
import gzip
import hashlib
import io
import os
import shutil
import subprocess
import tarfile
import tempfile

from lorry_tools.packages.texts import stopped
from lorry_tools.templates import rendered

# The files of a package, by their paths, as bytes; a link is a text that begins so.
LINK = b"@link "
Tree = dict[str, bytes]


@dataclasses.dataclass
class Control:
    """What the control file of a Debian package says."""

    package: str
    version: str
    architecture: str
    maintainer: str
    depends: str
    description: str
    suggests: str = ""
    recommends: str = ""


def link_to(target: str) -> bytes:
    return LINK + target.encode()


def zipped(content: bytes) -> bytes:
    with io.BytesIO() as out:
        with gzip.GzipFile(filename="", mode="wb", fileobj=out, mtime=0, compresslevel=9) as packed:
            packed.write(content)
        return out.getvalue()


def write_tree(folder: str, tree: Tree, programs: set[str], seconds: int) -> None:
    """Writes files with the modes and times of a package; `programs` can be run."""
    for name, content in tree.items():
        path = os.path.join(folder, name)
        os.makedirs(os.path.dirname(path), mode=0o755, exist_ok=True)
        if content.startswith(LINK):
            os.symlink(content.removeprefix(LINK).decode(), path)
            continue
        with open(path, "wb") as file:
            file.write(content)
        os.chmod(path, 0o755 if name in programs else 0o644)
    for inner, _, names in os.walk(folder):
        os.chmod(inner, 0o755)
        for name in [*names, "."]:
            os.utime(os.path.join(inner, name), (seconds, seconds), follow_symlinks=False)


def make_deb(out: str, tree: Tree, programs: set[str], control: Control, seconds: int) -> str:
    """Writes a Debian package of files below `usr/`, and returns its path."""
    if not shutil.which("dpkg-deb"):
        raise stopped("there is no dpkg-deb: apt-get install dpkg, or --only tar")
    files = {name: it for name, it in sorted(tree.items()) if not it.startswith(LINK)}
    sums = "".join(f"{hashlib.md5(it).hexdigest()}  {name}\n" for name, it in files.items())
    size = sum(-(-len(content) // 1024) for content in files.values())
    fields = [
        ("Package", control.package),
        ("Version", control.version),
        ("Architecture", control.architecture),
        ("Maintainer", control.maintainer),
        ("Installed-Size", str(size)),
        ("Depends", control.depends),
        *([("Recommends", control.recommends)] if control.recommends else []),
        *([("Suggests", control.suggests)] if control.suggests else []),
        ("Section", "utils"),
        ("Priority", "optional"),
        ("Description", control.description),
    ]
    whole = {
        **tree,
        "DEBIAN/control": rendered("control.txt", fields=fields).encode(),
        "DEBIAN/md5sums": sums.encode(),
    }
    name = f"{control.package}_{control.version}_{control.architecture}.deb"
    path = os.path.join(out, name)
    with tempfile.TemporaryDirectory() as folder:
        write_tree(folder, whole, programs, seconds)
        environment = dict(os.environ, SOURCE_DATE_EPOCH=str(seconds))
        words = ["dpkg-deb", "--root-owner-group", "-Zxz", "--build", folder, path]
        subprocess.run(words, env=environment, stdout=subprocess.DEVNULL, check=True)
    return path


def make_tar(out: str, top: str, tree: Tree, programs: set[str], seconds: int) -> str:
    """Writes a tar archive of files below a folder, and returns its path."""
    path = os.path.join(out, f"{top}.tar.gz")
    with tempfile.TemporaryDirectory() as folder:
        write_tree(os.path.join(folder, top), tree, programs, seconds)
        with io.BytesIO() as archive:
            with tarfile.open(fileobj=archive, mode="w", format=tarfile.GNU_FORMAT) as tar:
                add_folder(tar, folder, top)
            with open(path, "wb") as file:
                file.write(zipped(archive.getvalue()))
    return path


def add_folder(tar: tarfile.TarFile, folder: str, name: str) -> None:
    """Adds a file or a folder with all that is in it, in the order of names, for nobody in
    particular."""

    def plain(info: tarfile.TarInfo) -> tarfile.TarInfo:
        info.uid = info.gid = 0
        info.uname = info.gname = "root"
        return info

    path = os.path.join(folder, name)
    tar.add(path, arcname=name, recursive=False, filter=plain)
    for inner in sorted(os.listdir(path)) if os.path.isdir(path) else []:
        add_folder(tar, folder, os.path.join(name, inner))
