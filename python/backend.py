"""Builds the wheel with the C compiler and Python alone, over the libraries that `rt lib` proves and builds, or over those that a source
distribution carries. One wheel is for each Python from 3.10 on: the extensions keep to what all of them have (the limited API)."""

import base64
import hashlib
import os
import pathlib
import re
import shlex
import shutil
import subprocess
import sys
import sysconfig
import tempfile
import time
import zipfile

HERE = pathlib.Path(__file__).resolve().parent
PACKAGE = HERE / "thrushscreen"
CRATES = HERE.parent / "crates"
# A source distribution has the headers here, the lock of the loader that threads share, and the archives.
CARRIED = HERE / "c"
# The extensions: each one's crate, what names its archives in the environment, and its other sources.
EXTENSIONS = {"_desk": ("dl_c", "DL_DESK_ARCHIVES", []), "_shared": ("dl_loader_c", "DL_LOADER_ARCHIVES", ["dl_loader.c"])}
VERSION = re.search(r'^__version__ = "(.+)"', (PACKAGE / "__init__.py").read_text(), re.MULTILINE)[1]

METADATA = f"""\
Metadata-Version: 2.1
Name: thrushscreen
Version: {VERSION}
Summary: A data loader for asyncio, one for a thread, and one that threads share, over a proved library
Requires-Python: >=3.10
"""


def archives(crate, variable):
    """The archives of a library and of its heap: those that the variable names, those that are carried, or what `rt` builds."""
    if variable in os.environ:
        return shlex.split(os.environ[variable])
    if CARRIED.exists():
        if sysconfig.get_platform() != "linux-x86_64":
            sys.exit("thrushscreen: the library that comes with this source is for Linux on x86_64 alone")
        return [CARRIED / f"lib{crate}.a", CARRIED / "liblibc_c.a"]
    if shutil.which("rt") is None:
        sys.exit("thrushscreen: there is no rt on the path, the toolchain's command that proves and builds the library; or set DL_DESK_ARCHIVES and DL_LOADER_ARCHIVES")
    subprocess.run(["rt", "lib"], cwd=CRATES / crate, check=True)
    page = subprocess.run(["rt", "doc"], check=True, capture_output=True, text=True).stdout.strip()
    return [CRATES / crate / "out" / f"lib{crate}.a", pathlib.Path(page).parent / "c" / "liblibc_c.a"]


def extension(name):
    """The bytes of an extension, which shows nothing but its module."""
    crate, variable, others = EXTENSIONS[name]
    sources = CARRIED if CARRIED.exists() else HERE.parent / "c"
    libraries = archives(crate, variable)
    for library in libraries:
        if not os.path.exists(library):
            sys.exit(f"thrushscreen: there is no {library}")
    with tempfile.TemporaryDirectory() as folder:
        built = pathlib.Path(folder, f"{name}.so")
        command = [*shlex.split(os.environ.get("CC", "cc")), "-shared", "-fPIC", "-O3", "-Wall", "-Wextra", "-fvisibility=hidden", "-pthread"]
        command += [*shlex.split(os.environ.get("CFLAGS", "")), f"-I{sysconfig.get_path('include')}", f"-I{sources}"]
        command += ["-o", built, PACKAGE / f"{name}.c", *(sources / other for other in others), *libraries]
        subprocess.run([*command, "-Wl,--exclude-libs,ALL"], check=True)
        return built.read_bytes()


def build_wheel(wheel_directory, config_settings=None, metadata_directory=None):
    """What pip calls."""
    return write_wheel(wheel_directory, re.sub("[-.]", "_", sysconfig.get_platform()), {name: extension(name) for name in EXTENSIONS}, {})


def write_wheel(folder, platform, built, papers):
    """Writes the wheel of extensions that were built for that platform, with further files of its dist-info, and answers its name."""
    tag = f"cp310-abi3-{platform}"
    info = f"thrushscreen-{VERSION}.dist-info"
    wheel = f"Wheel-Version: 1.0\nGenerator: thrushscreen ({VERSION})\nRoot-Is-Purelib: false\nTag: {tag}\n"
    sources = [file for file in sorted(PACKAGE.iterdir()) if file.suffix in (".py", ".pyi", ".typed")]
    files = {f"thrushscreen/{file.name}": file.read_bytes() for file in sources}
    files.update({f"thrushscreen/{name}.abi3.so": content for name, content in built.items()})
    files.update({f"{info}/{name}": content for name, content in papers.items()})
    files[f"{info}/METADATA"] = METADATA.encode()
    files[f"{info}/WHEEL"] = wheel.encode()
    record = [f"{name},sha256={checksum(content)},{len(content)}\n" for name, content in files.items()]
    files[f"{info}/RECORD"] = "".join([*record, f"{info}/RECORD,,\n"]).encode()
    name = f"thrushscreen-{VERSION}-{tag}.whl"
    now = time.gmtime(int(os.environ.get("SOURCE_DATE_EPOCH", time.time())))[:6]
    with zipfile.ZipFile(pathlib.Path(folder, name), "w") as archive:
        for file, content in files.items():
            entry = zipfile.ZipInfo(file, now)
            entry.external_attr = 0o100644 << 16
            archive.writestr(entry, content, zipfile.ZIP_DEFLATED)
    return name


def checksum(content):
    return base64.urlsafe_b64encode(hashlib.sha256(content).digest()).rstrip(b"=").decode()
