"""Builds the package for pip: compiles the engine's C and packs it with the package.

pip calls the functions without a leading underscore (PEP 517).  They need Python's
standard library and a C compiler, neither setuptools nor wheel, so that pip fetches
nothing.  On Linux the same sources and compiler give the same bytes.

The C is portable/barrier_engine.c two folders up; in a source distribution it lies
in engine/, beside this file.  Like everything around the calls, this is tested and
not proved.
"""
import base64
import gzip
import hashlib
import io
import os
import platform
import re
import shlex
import shutil
import subprocess
import sys
import sysconfig
import tarfile
import tempfile
import zipfile
from typing import Any, Dict, List, NamedTuple, Tuple

HERE = os.path.dirname(os.path.abspath(__file__))
PACKAGE = "barrier_engine"
# One time for every file that is packed, the first that zip can hold: 1980.
ZIP_TIME, TAR_TIME = (1980, 1, 1, 0, 0, 0), 315532800

# Where CC names no compiler, the first of these that is there.
COMPILERS = ("cc", "gcc", "clang")
COMPILERS_OF_WINDOWS = ("cl", "clang-cl", "gcc", "clang")

# Run by a Python of its own, which lets go of the library when it ends.
LOADED = """
import sys
sys.path.insert(0, sys.argv[1])
from barrier_engine import __version__, c
try:
    number = c.version_number(c.load(sys.argv[2]))
except c.LibraryError as error:
    sys.exit(str(error))
print(__version__, "%d.%d.%d" % (number // 1000000, number // 1000 % 1000, number % 1000))
"""


class Packed(NamedTuple):
    """A file of a wheel or of a source distribution."""

    name: str
    data: bytes
    mode: int = 0o644


def _fail(words: str) -> SystemExit:
    """pip shows these words; an exception of another kind would come with a traceback."""
    return SystemExit(f"barrier-engine: {words}")


def _read(*names: str) -> bytes:
    with open(os.path.join(*names), "rb") as file:
        return file.read()


def _project() -> Dict[str, str]:
    """The lines NAME = "VALUE" of the table [project]: Python 3.8 has no reader of TOML."""
    text = _read(HERE, "pyproject.toml").decode("utf-8").replace("\r\n", "\n")
    table = text.split("\n[project]\n")[1].split("\n[")[0]
    return dict(re.findall(r'^([\w-]+) = "(.*)"$', table, re.M))


# The library.

def _engine() -> Tuple[str, str]:
    """The engine in C and its header."""
    root = os.path.dirname(os.path.dirname(HERE))
    own = os.path.join(HERE, "engine")
    folders = (own, own) if os.path.isdir(own) else (
        os.path.join(root, "portable"), os.path.join(root, "include"))
    found = os.path.join(folders[0], "barrier_engine.c"), os.path.join(folders[1], "barrier.h")
    for path in found:
        if not os.path.isfile(path):
            raise _fail(
                f"there is no {path}. The package is built where it lies, in bindings/python of the "
                "engine's folder. A pip before 21.3 builds a copy elsewhere: take a later one, or "
                "in bindings/python run python3 -c \"import barrier_build as b; "
                "print(b.build_sdist('.'))\" and install the file that it names.")
    return found


def _words(name: str, default: str = "") -> List[str]:
    """The words of an environment variable.  On Windows a backslash is part of a path."""
    text = os.environ.get(name, default)
    try:
        return [word.strip('"') for word in shlex.split(text, posix=os.name != "nt")]
    except ValueError as error:
        raise _fail(f"the environment variable {name} is {text!r}, which cannot be read: {error}")


def _compiler() -> List[str]:
    """The compiler's command: CC, which may have options, else one that is found."""
    named = _words("CC")
    if named:
        return named
    names = COMPILERS_OF_WINDOWS if sys.platform == "win32" else COMPILERS
    for name in names:
        if shutil.which(name):
            return [name]
    raise _fail(f"there is no C compiler: none of {', '.join(names)} is found. Install one, or name "
                "it with the environment variable CC.")


def _is_microsofts(compiler: List[str]) -> bool:
    name = re.split(r"[\\/]", compiler[0].lower())[-1]
    return name in ("cl", "cl.exe", "clang-cl", "clang-cl.exe")


def _mac_target() -> Tuple[str, str]:
    """The first release of macOS that the library is for, and the machine.

    Python may be for two machines at once (universal2): the library is for the one
    that runs.  From 11 on pip knows only the releases N.0, and arm64 begins there.
    """
    release, machine = sysconfig.get_platform().split("-")[1], platform.machine()
    major = int(release.split(".")[0])
    if major < 11 and machine == "arm64":
        major = 11
    return (f"{major}.0" if major >= 11 else release), machine


def _command(compiler: List[str], library: str) -> List[str]:
    """Compiles and links.  Everything in the C but the header's calls is static, so that
    they are all that is exported; Microsoft's linker exports only what it is told to."""
    from barrier_engine.c import CALLS
    source, header = _engine()
    include = os.path.dirname(header)
    if _is_microsofts(compiler):
        exports = [f"/EXPORT:{call}" for call in (*CALLS, "barrier_version")]
        return [*compiler, "/nologo", "/O2", "/TC", "/LD", "/I" + include, source,
                "/Fe" + library, "/link", *exports]
    options = ["-std=c99", *_words("CFLAGS", "-O2"), "-shared"]
    if sys.platform == "darwin":
        release, machine = _mac_target()
        options += ["-arch", machine, f"-mmacosx-version-min={release}",
                    f"-Wl,-install_name,@rpath/{os.path.basename(library)}"]
    if sys.platform != "win32":  # where all code is position independent
        options.append("-fPIC")
    return [*compiler, *options, "-I" + include, source, "-o", library, *_words("LDFLAGS")]


def _run(command: List[str], folder: str) -> Tuple[int, str]:
    """A command's status, and what it printed."""
    done = subprocess.run(command, cwd=folder, stdout=subprocess.PIPE, stderr=subprocess.STDOUT)
    return done.returncode, done.stdout.decode("utf-8", "replace").strip()


def _compile(folder: str) -> str:
    """The library, in a folder."""
    from barrier_engine.c import LIBRARY_NAME
    library = os.path.join(folder, LIBRARY_NAME)
    command = _command(_compiler(), library)
    shown = " ".join(command)
    try:
        status, printed = _run(command, folder)
    except OSError as error:
        raise _fail(f"the C compiler {command[0]} cannot be run: {error.strerror}. Name "
                    "another with the environment variable CC.")
    if status != 0 or not os.path.isfile(library):
        raise _fail(f"the C compiler made no library and ended with {status}. It was run as\n{shown}\n"
                    f"{printed or 'and said nothing'}\nName another with the environment variable CC.")
    # pip shows it with -v.  Standard error takes every letter, standard output need not.
    print(shown, printed, sep="\n", file=sys.stderr)
    return library


def _check(library: str, version: str) -> None:
    """That this Python can call the library, and that all are of one version."""
    with tempfile.TemporaryDirectory() as elsewhere:
        status, printed = _run([sys.executable, "-c", LOADED, HERE, library], elsewhere)
    if status != 0:
        raise _fail("this Python cannot call the library that was compiled; the compiler has to be "
                    f"one for the machine that Python is built for. {printed}")
    if printed.split() != [version, version]:
        raise _fail(f"pyproject.toml is of version {version}; the package and the engine in C are of "
                    f"{' and '.join(printed.split())}")


def _library(version: str) -> Packed:
    from barrier_engine.c import LIBRARY_NAME
    with tempfile.TemporaryDirectory() as folder:
        library = _compile(folder)
        _check(library, version)
        return Packed(f"{PACKAGE}/{LIBRARY_NAME}", _read(library), 0o755)


# What is packed.

def _modules() -> List[Packed]:
    """The package's own files; py.typed says that its types are to be read."""
    names = sorted(os.listdir(os.path.join(HERE, PACKAGE)))
    return [Packed(f"{PACKAGE}/{name}", _read(HERE, PACKAGE, name))
            for name in names if name.endswith(".py") or name == "py.typed"]


def _metadata() -> bytes:
    project = _project()
    head = (f"Metadata-Version: 2.1\nName: {project['name']}\nVersion: {project['version']}\n"
            f"Summary: {project['description']}\nRequires-Python: {project['requires-python']}\n"
            "Description-Content-Type: text/markdown\n\n")
    return head.encode() + _read(HERE, project["readme"])


def _platform_tag() -> str:
    """The platform as pip names it."""
    found = sysconfig.get_platform()
    if found.startswith("macosx-"):
        found = "macosx-{}-{}".format(*_mac_target())
    elif sys.maxsize < 1 << 32:  # a Python of 32 bits on a system of 64
        found = {"linux-x86_64": "linux-i686", "linux-aarch64": "linux-armv7l"}.get(found, found)
    return re.sub(r"\W", "_", found)


def _tag() -> str:
    """Any Python 3, by no binary interface of Python's: the library is called by ctypes."""
    return f"py3-none-{_platform_tag()}"


def _info() -> List[Packed]:
    """What a wheel says of itself."""
    project = _project()
    folder = f"{PACKAGE}-{project['version']}.dist-info"
    wheel = (f"Wheel-Version: 1.0\nGenerator: barrier_build {project['version']}\n"
             f"Root-Is-Purelib: false\nTag: {_tag()}\n")
    return [Packed(f"{folder}/METADATA", _metadata()), Packed(f"{folder}/WHEEL", wheel.encode())]


def _record(files: List[Packed], name: str) -> Packed:
    """The sum and size of every file but this list itself."""
    rows = []
    for file in files:
        sum_ = base64.urlsafe_b64encode(hashlib.sha256(file.data).digest()).rstrip(b"=").decode()
        rows.append(f"{file.name},sha256={sum_},{len(file.data)}\n")
    return Packed(name, "".join([*rows, f"{name},,\n"]).encode())


def _zip(path: str, files: List[Packed]) -> None:
    with zipfile.ZipFile(path, "w") as archive:
        for file in files:
            info = zipfile.ZipInfo(file.name, ZIP_TIME)
            info.create_system = 3  # Unix, whose modes these are
            info.external_attr = (0o100000 | file.mode) << 16
            info.compress_type = zipfile.ZIP_DEFLATED
            archive.writestr(info, file.data)


def _tar(path: str, files: List[Packed]) -> None:
    with open(path, "wb") as raw, gzip.GzipFile("", "wb", fileobj=raw, mtime=0) as packed, \
            tarfile.open(fileobj=packed, mode="w", format=tarfile.PAX_FORMAT) as archive:
        for file in files:
            info = tarfile.TarInfo(file.name)
            info.size, info.mode, info.mtime = len(file.data), file.mode, TAR_TIME
            archive.addfile(info, io.BytesIO(file.data))


# What pip calls.

def prepare_metadata_for_build_wheel(metadata_directory: str, config_settings: Any = None) -> str:
    for file in _info():
        path = os.path.join(metadata_directory, *file.name.split("/"))
        os.makedirs(os.path.dirname(path), exist_ok=True)
        with open(path, "wb") as out:
            out.write(file.data)
    return os.path.basename(os.path.dirname(path))


def build_wheel(
    wheel_directory: str, config_settings: Any = None, metadata_directory: Any = None
) -> str:
    version = _project()["version"]
    info = _info()
    files = [*_modules(), _library(version), *info]
    files.append(_record(files, f"{os.path.dirname(info[0].name)}/RECORD"))
    name = f"{PACKAGE}-{version}-{_tag()}.whl"
    _zip(os.path.join(wheel_directory, name), files)
    return name


def build_sdist(sdist_directory: str, config_settings: Any = None) -> str:
    folder = f"{PACKAGE}-{_project()['version']}"
    own = [Packed(name, _read(HERE, name)) for name in ("README.md", "barrier_build.py", "pyproject.toml")]
    engine = [Packed(f"engine/{os.path.basename(path)}", _read(path)) for path in _engine()]
    files = [Packed("PKG-INFO", _metadata()), *own, *_modules(), *engine]
    _tar(os.path.join(sdist_directory, folder + ".tar.gz"),
         [file._replace(name=f"{folder}/{file.name}") for file in files])
    return folder + ".tar.gz"


def build_editable(
    wheel_directory: str, config_settings: Any = None, metadata_directory: Any = None
) -> str:
    raise _fail("it is not installed in editable form: its library is made when it is installed. To "
                "use the folder as it lies, set PYTHONPATH to bindings/python and BARRIER_LIBRARY to "
                "a library.")
