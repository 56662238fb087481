"""Builds the package: the hooks of PEP 517, by the standard library and a C compiler alone.

The static library and its header are those of bindings/c/build.sh, in a folder PREFIX that the config setting `prefix`
or the environment variable ZEVKHADUN_PREFIX names. A source archive has both inside.
"""

from __future__ import annotations

import base64
import gzip
import hashlib
import io
import os
import re
import subprocess
import sysconfig
import tarfile
import tempfile
import tomllib
import zipfile
from pathlib import Path

HERE = Path(__file__).resolve().parent.parent
PACKAGE = HERE / "src/zevkhadun"
SOURCES = HERE / "src/core"
# Where a source archive has the library.
INSIDE = HERE / "library"
LIBRARY, HEADER = "lib/libzevkhadun.a", "include/zevkhadun.h"
LIMITED = "cp311-abi3"
# The system of manylinux_2_34 has this version of the C library, and processors of x86-64-v2.
MANYLINUX = (2, 34)
FLAGS = ("-std=c11", "-O2", "-fPIC", "-fvisibility=hidden", "-Wall", "-Wextra", "-Wno-unused-parameter")
LINKING = ("-shared", "-Wl,--exclude-libs,ALL", "-Wl,-z,relro,-z,now")
DATE = (1980, 1, 1, 0, 0, 0)


class BuildError(Exception):
    """The package can't be built."""


def project() -> dict:
    """What pyproject.toml says of the project."""
    return tomllib.loads((HERE / "pyproject.toml").read_text(encoding="utf-8"))["project"]


def stem() -> str:
    """The name and the version, as file names have them."""
    told = project()
    return f"{told['name']}-{told['version']}"


def prefix_of(settings: dict | None) -> Path:
    """The folder of the library. Raises BuildError if none is named, or if it lacks a file."""
    named = (settings or {}).get("prefix") or os.environ.get("ZEVKHADUN_PREFIX")
    prefix = Path(named) if named else INSIDE
    for name in (LIBRARY, HEADER):
        if not (prefix / name).is_file():
            raise BuildError(
                f"there is no {prefix / name}; `bash bindings/c/build.sh PREFIX` builds the library, and the config "
                "setting `prefix` or the variable ZEVKHADUN_PREFIX names PREFIX"
            )
    return prefix


def compiled(prefix: Path, folder: Path) -> Path:
    """The extension module, compiled in a folder."""
    module = folder / "_core.abi3.so"
    includes = [f"-I{prefix / 'include'}", f"-I{sysconfig.get_path('include')}"]
    command = [os.environ.get("CC", "cc"), *FLAGS, *includes, *LINKING, "-o", module]
    command += [*sorted(SOURCES.glob("*.c")), prefix / LIBRARY]
    try:
        subprocess.run(command, check=True)
    except (OSError, subprocess.CalledProcessError) as error:
        raise BuildError(f"the extension module can't be compiled: {error}") from None
    return module


def platform_of(module: Path) -> str:
    """The platform of the wheel: manylinux only if no symbol is newer than that, and no other library is needed."""
    content = module.read_bytes()
    versions = {tuple(map(int, found)) for found in re.findall(rb"\0GLIBC_(\d+)\.(\d+)(?:\.\d+)?(?=\0)", content)}
    needed = set(re.findall(rb"\0(lib[\w+.-]+\.so(?:\.\d+)*)(?=\0)", content))
    machine = sysconfig.get_platform().replace("-", "_").replace(".", "_")
    if machine == "linux_x86_64" and versions and max(versions) <= MANYLINUX and needed <= {b"libc.so.6"}:
        return "manylinux_%d_%d_x86_64" % MANYLINUX
    return machine


def metadata() -> bytes:
    """The file METADATA, and PKG-INFO of a source archive."""
    told = project()
    lines = ["Metadata-Version: 2.1", f"Name: {told['name']}", f"Version: {told['version']}"]
    lines += [f"Summary: {told['description']}", f"Requires-Python: {told['requires-python']}"]
    lines += [f"Classifier: {line}" for line in told["classifiers"]]
    lines += ["License-File: LICENSE", "Description-Content-Type: text/markdown", ""]
    return ("\n".join(lines) + "\n" + (HERE / told["readme"]).read_text(encoding="utf-8")).encode()


def license_text() -> bytes:
    """The licence: of the repository, or of a source archive."""
    inside = HERE / "LICENSE"
    return (inside if inside.is_file() else HERE.parent.parent / "LICENSE").read_bytes()


def package_files() -> dict[str, bytes]:
    """The files of the package but the extension module."""
    paths = [path for path in PACKAGE.iterdir() if path.suffix in (".py", ".pyi") or path.name == "py.typed"]
    return {f"zevkhadun/{path.name}": path.read_bytes() for path in paths}


def dist_info(tag: str) -> dict[str, bytes]:
    """The files that say what the wheel is."""
    wheel = f"Wheel-Version: 1.0\nGenerator: zevkhadun_build\nRoot-Is-Purelib: false\nTag: {tag}\n"
    told = {"METADATA": metadata(), "WHEEL": wheel.encode(), "LICENSE": license_text()}
    return {f"{stem()}.dist-info/{name}": content for name, content in told.items()}


def record_line(name: str, content: bytes) -> str:
    """A line of RECORD."""
    digest = base64.urlsafe_b64encode(hashlib.sha256(content).digest()).rstrip(b"=").decode()
    return f"{name},sha256={digest},{len(content)}\n"


def write_wheel(path: Path, files: dict[str, bytes]) -> None:
    """Writes a wheel; the same files make the same bytes."""
    record = f"{stem()}.dist-info/RECORD"
    lines = [record_line(name, content) for name, content in files.items()] + [f"{record},,\n"]
    with zipfile.ZipFile(path, "w", zipfile.ZIP_DEFLATED) as wheel:
        for name, content in [*files.items(), (record, "".join(lines).encode())]:
            told = zipfile.ZipInfo(name, DATE)
            told.compress_type = zipfile.ZIP_DEFLATED
            told.external_attr = (0o755 if name.endswith(".so") else 0o644) << 16
            wheel.writestr(told, content)


def build_wheel(
    wheel_directory: str, config_settings: dict | None = None, metadata_directory: str | None = None
) -> str:
    """Builds the wheel, and returns its name."""
    prefix = prefix_of(config_settings)
    with tempfile.TemporaryDirectory() as folder:
        module = compiled(prefix, Path(folder))
        tag = f"{LIMITED}-{platform_of(module)}"
        files = package_files() | {"zevkhadun/_core.abi3.so": module.read_bytes()} | dist_info(tag)
    name = f"{stem()}-{tag}.whl"
    write_wheel(Path(wheel_directory) / name, dict(sorted(files.items())))
    return name


def prepare_metadata_for_build_wheel(metadata_directory: str, config_settings: dict | None = None) -> str:
    """Writes what a wheel says of the package, which needs no compiler, and returns the folder's name."""
    folder = f"{stem()}.dist-info"
    (Path(metadata_directory) / folder).mkdir()
    (Path(metadata_directory) / folder / "METADATA").write_bytes(metadata())
    return folder


def build_sdist(sdist_directory: str, config_settings: dict | None = None) -> str:
    """Builds the source archive, with the library inside, and returns its name."""
    prefix = prefix_of(config_settings)
    folders = ("backend", "examples", "src", "tests")
    paths = [path for folder in folders for path in (HERE / folder).rglob("*") if path.is_file()]
    paths = [path for path in paths if "__pycache__" not in path.parts] + [HERE / "README.md", HERE / "pyproject.toml"]
    files = {str(path.relative_to(HERE)): path.read_bytes() for path in paths}
    files |= {f"library/{name}": (prefix / name).read_bytes() for name in (LIBRARY, HEADER)}
    files |= {"PKG-INFO": metadata(), "LICENSE": license_text()}
    name = f"{stem()}.tar.gz"
    with gzip.GzipFile(Path(sdist_directory) / name, "wb", mtime=0) as packed:
        with tarfile.open(fileobj=packed, mode="w", format=tarfile.PAX_FORMAT) as archive:
            for path, content in sorted(files.items()):
                member = tarfile.TarInfo(f"{stem()}/{path}")
                member.size = len(content)
                archive.addfile(member, io.BytesIO(content))
    return name
