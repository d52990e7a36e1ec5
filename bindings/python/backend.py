"""Makes the wheel of the package `sirbolta` for pip, by the standard library alone: nothing is downloaded."""

import zipfile
from base64 import urlsafe_b64encode
from hashlib import sha256
from pathlib import Path

HERE = Path(__file__).resolve().parent
VERSION = (HERE / "VERSION").read_text().strip()
TAG = "py3-none-linux_x86_64"
ABOUT = f"sirbolta-{VERSION}.dist-info"
METADATA = f"""Metadata-Version: 2.1
Name: sirbolta
Version: {VERSION}
Summary: A search index for recorded joystick drives of powered wheelchairs, small and proved
Requires-Python: >=3.10
"""
WHEEL = f"""Wheel-Version: 1.0
Generator: sirbolta
Root-Is-Purelib: false
Tag: {TAG}
"""


def build_wheel(wheel_directory, config_settings=None, metadata_directory=None):
    """The name of the wheel that is written to a folder: what pip asks for."""
    files = {f"sirbolta/{file.name}": file.read_bytes() for file in sorted((HERE / "sirbolta").iterdir()) if file.is_file()}
    files |= {f"{ABOUT}/METADATA": METADATA.encode(), f"{ABOUT}/WHEEL": WHEEL.encode()}
    record = "".join(f"{name},sha256={digest(content)},{len(content)}\n" for name, content in files.items())
    files[f"{ABOUT}/RECORD"] = f"{record}{ABOUT}/RECORD,,\n".encode()
    wheel = f"sirbolta-{VERSION}-{TAG}.whl"
    with zipfile.ZipFile(Path(wheel_directory) / wheel, "w", zipfile.ZIP_DEFLATED) as archive:
        for name, content in files.items():
            archive.writestr(zipfile.ZipInfo(name), content)
    return wheel


def digest(content):
    return urlsafe_b64encode(sha256(content).digest()).rstrip(b"=").decode()
