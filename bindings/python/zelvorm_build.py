"""Builds the wheel of the package zelvorm, with the shared library in it; needs nothing but Python (PEP 517)."""

import base64
import hashlib
import os
import re
import sysconfig
import zipfile
from pathlib import Path

HERE = Path(__file__).resolve().parent
PACKAGE = HERE / "zelvorm"

# The same bytes give the same wheel.
BUILT = (1980, 1, 1, 0, 0, 0)


class UnsupportedOperation(Exception):
    """What this backend does not do."""


def version():
    return re.search(r'^VERSION = "(.+)"$', (PACKAGE / "raw.py").read_text(), re.MULTILINE)[1]


def library():
    """The shared library: in the folder that ZELVORM_LIB_DIR names, in the repository, or where both are installed."""
    named = os.environ.get("ZELVORM_LIB_DIR")
    places = [Path(named)] if named else [HERE.parents[1] / "target" / "library", HERE.parents[2] / "lib"]
    for place in places:
        if (place / "libzelvorm.so").is_file():
            return place / "libzelvorm.so"
    raise FileNotFoundError(f"no libzelvorm.so in {', '.join(map(str, places))}: build it (tools/build_library)")


def metadata():
    fields = [
        "Metadata-Version: 2.1",
        "Name: zelvorm",
        f"Version: {version()}",
        "Summary: The engine of a practice futures exchange: order book, accounts, margin and settlement",
        "Requires-Python: >=3.9",
        "Description-Content-Type: text/markdown",
    ]
    return "\n".join([*fields, "", (HERE / "README.md").read_text()])


def build_wheel(wheel_directory, config_settings=None, metadata_directory=None):
    platform = re.sub(r"[-.]", "_", sysconfig.get_platform())
    tag, told = f"py3-none-{platform}", f"zelvorm-{version()}.dist-info"
    files = {f"zelvorm/{path.name}": path.read_bytes() for path in sorted(PACKAGE.iterdir()) if path.suffix in (".py", ".typed")}
    files["zelvorm/libzelvorm.so"] = library().read_bytes()
    files[f"{told}/METADATA"] = metadata().encode()
    files[f"{told}/WHEEL"] = f"Wheel-Version: 1.0\nGenerator: zelvorm_build\nRoot-Is-Purelib: false\nTag: {tag}\n".encode()
    rows = [f"{name},sha256={digest(content)},{len(content)}\n" for name, content in files.items()]
    files[f"{told}/RECORD"] = "".join([*rows, f"{told}/RECORD,,\n"]).encode()
    name = f"zelvorm-{version()}-{tag}.whl"
    with zipfile.ZipFile(Path(wheel_directory) / name, "w", zipfile.ZIP_DEFLATED) as wheel:
        for path, content in files.items():
            entry = zipfile.ZipInfo(path, BUILT)
            entry.compress_type = zipfile.ZIP_DEFLATED
            entry.external_attr = 0o100644 << 16
            wheel.writestr(entry, content)
    return name


def digest(content):
    return base64.urlsafe_b64encode(hashlib.sha256(content).digest()).rstrip(b"=").decode()


def build_sdist(sdist_directory, config_settings=None):
    raise UnsupportedOperation("a source package would lack the library: build a wheel")
