"""Builds the wheel: the Python files, the extension where a compiler is, and libhyphenation.so.0 as bindings/c makes it.

HYPHENATION_LIBRARY names another file of the library. With HYPHENATION_CALLS=ctypes the extension is left out.
HYPHENATION_COPYRIGHT names a file of more licences, such as those of what the library has built in.
"""

import base64
import gzip
import hashlib
import io
import os
import pathlib
import subprocess
import sys
import sysconfig
import tarfile
import tempfile
import time
import zipfile

HERE = pathlib.Path(__file__).resolve().parent
NAME, VERSION = "hyphenation_verified", "0.1.0"
METADATA = """Metadata-Version: 2.1
Name: hyphenation-verified
Version: {}
Summary: Hyphenation of words, texts and lines, over a library whose calls for C are proved
License: MIT OR Apache-2.0
Requires-Python: >=3.8
""".format(VERSION)
#: The extension has the limited API of this version of Python, and its file this name.
LIMITED, EXTENSION = "cp310-abi3", "_extension.abi3.so"
C = HERE.parent / "c"
IS_IN_REPOSITORY = (C / "Makefile").exists()
HEADER = C / "hyphenation.h" if IS_IN_REPOSITORY else HERE / "hyphenation.h"
# All files get this time, so that the same files make the same archives.
TIME = int(os.environ.get("SOURCE_DATE_EPOCH") or 1700000000)


def _say(text):
    print("hyphenation: " + text, file=sys.stderr, flush=True)


def _library():
    """The path of the library. Where there is none, the build ends and says what makes it."""
    named = os.environ.get("HYPHENATION_LIBRARY")
    if named:
        found = pathlib.Path(named)
        why = "HYPHENATION_LIBRARY names no file: {}".format(found)
    elif IS_IN_REPOSITORY:
        found = C / "out" / "libhyphenation.so.0"
        why = "the library for C is not built. This command proves and builds it:\n\n  make -C {}\n".format(C)
    else:
        command = ["pkg-config", "--variable=libdir", "hyphenation"]
        try:
            said = subprocess.run(command, stdout=subprocess.PIPE, check=True).stdout.decode()
        except (OSError, subprocess.CalledProcessError):
            said = ""
        found = pathlib.Path(said.strip() or os.devnull) / "libhyphenation.so.0"
        why = "pkg-config finds no libhyphenation.so.0. Install it, or let HYPHENATION_LIBRARY name it"
    if not found.is_file():
        _say(why)
        raise SystemExit(1)
    return found


def build_extension(folder):
    """Builds the extension in a folder. Returns its path; or None where it can't be built, and says why."""
    if os.environ.get("HYPHENATION_CALLS") == "ctypes":
        return None
    include, path = sysconfig.get_paths()["include"], os.path.join(str(folder), EXTENSION)
    if not os.path.exists(os.path.join(include, "Python.h")):
        _say("without the extension, since Python.h is not in {}: ctypes serves".format(include))
        return None
    command = os.environ.get("CC", "cc").split()
    command += ["-std=c11", "-O2", "-Wall", "-Wextra", "-fPIC", "-fvisibility=hidden", "-shared", "-s", "-Wl,-z,relro,-z,now"]
    command += ["-I" + include, "-I" + str(HEADER.parent), str(HERE / "src" / "_extension.c"), "-o", path, "-ldl"]
    try:
        subprocess.run(command, check=True)
    except (OSError, subprocess.CalledProcessError) as error:
        _say("without the extension, which was not compiled: {}: ctypes serves".format(error))
        return None
    return path


def _sources():
    """The files of the package, by their names in it."""
    files = sorted((HERE / "src" / "hyphenation").glob("*.py")) + sorted((HERE / "src" / "hyphenation").glob("*.pyi"))
    return {"hyphenation/" + path.name: path.read_bytes() for path in files}


def _licences():
    """The licences, by their names: those of this repository, and the file that HYPHENATION_COPYRIGHT names."""
    paths = sorted((HERE.parent.parent if IS_IN_REPOSITORY else HERE).glob("LICENSE-*"))
    found = {path.name: path.read_bytes() for path in paths}
    named = os.environ.get("HYPHENATION_COPYRIGHT")
    if named:
        found["copyright"] = pathlib.Path(named).read_bytes()
    return found


def write_wheel(folder, name, version, tag, metadata, files):
    """Writes a wheel of files by their names, and returns the name of the wheel."""
    info = "{}-{}.dist-info/".format(name, version)
    pure = str(tag.endswith("-none-any")).lower()
    wheel = "Wheel-Version: 1.0\nGenerator: backend\nRoot-Is-Purelib: {}\nTag: {}\n".format(pure, tag)
    files = {**files, info + "METADATA": metadata.encode(), info + "WHEEL": wheel.encode()}
    record = []
    for path, content in files.items():
        digest = base64.urlsafe_b64encode(hashlib.sha256(content).digest()).rstrip(b"=").decode()
        record.append("{},sha256={},{}\n".format(path, digest, len(content)))
    files[info + "RECORD"] = ("".join(record) + info + "RECORD,,\n").encode()
    file = "{}-{}-{}.whl".format(name, version, tag)
    with zipfile.ZipFile(pathlib.Path(folder) / file, "w", zipfile.ZIP_DEFLATED) as archive:
        for path, content in files.items():
            entry = zipfile.ZipInfo(path, time.gmtime(max(TIME, 315532800))[:6])
            entry.compress_type, entry.external_attr = zipfile.ZIP_DEFLATED, 0o644 << 16
            archive.writestr(entry, content)
    return file


def get_requires_for_build_wheel(config_settings=None):
    _library()
    return []


def build_wheel(wheel_directory, config_settings=None, metadata_directory=None):
    platform = sysconfig.get_platform().replace("-", "_").replace(".", "_")
    files = _sources()
    files["hyphenation/py.typed"] = b""
    for name, content in _licences().items():
        files["{}-{}.dist-info/licenses/{}".format(NAME, VERSION, name)] = content
    files["hyphenation/libhyphenation.so.0"] = _library().read_bytes()
    tag = "py3-none-"
    with tempfile.TemporaryDirectory() as folder:
        extension = build_extension(folder)
        if extension:
            tag = LIMITED + "-"
            files["hyphenation/" + EXTENSION] = pathlib.Path(extension).read_bytes()
    return write_wheel(wheel_directory, NAME, VERSION, tag + platform, METADATA, files)


def build_sdist(sdist_directory, config_settings=None):
    """Writes the sources of the Python package. The library is not among them: a wheel is built over an installed one."""
    top = "{}-{}".format(NAME, VERSION)
    files = {"src/" + name: content for name, content in _sources().items()}
    files["src/_extension.c"] = (HERE / "src" / "_extension.c").read_bytes()
    files["hyphenation.h"] = HEADER.read_bytes()
    files.update(_licences())
    for name in "backend.py", "pyproject.toml":
        files[name] = (HERE / name).read_bytes()
    files["PKG-INFO"] = METADATA.encode()
    packed = io.BytesIO()
    with tarfile.open(fileobj=packed, mode="w", format=tarfile.PAX_FORMAT) as archive:
        for name, content in sorted(files.items()):
            entry = tarfile.TarInfo(top + "/" + name)
            entry.size, entry.mtime, entry.mode = len(content), TIME, 0o644
            archive.addfile(entry, io.BytesIO(content))
    (pathlib.Path(sdist_directory) / (top + ".tar.gz")).write_bytes(gzip.compress(packed.getvalue(), mtime=TIME))
    return top + ".tar.gz"
