"""Archives whose bytes follow from what is in them: each file has the same time and owner, and they come in the order of their names."""
from __future__ import annotations

import base64
import gzip
import hashlib
import io
import pathlib
import tarfile
import time as clock
import zipfile
from dataclasses import dataclass
from typing import Dict, Tuple

PLATFORM = "manylinux_2_5_x86_64.manylinux1_x86_64.musllinux_1_1_x86_64"
SUMMARY = "Proved planner of the evacuation of buildings"
DESCRIPTION = "Plans with as many people out by every period as any plan can have, and the cuts that show it."
FIRST_TIME = 315532800  # 1980, before which a zip has no time


@dataclass(frozen=True)
class File:
    """A file of an archive: its bytes and mode, or the place that it is a link to."""

    data: bytes = b""
    mode: int = 0o644
    link: str = ""


Files = Dict[str, File]


def digest(data: bytes) -> str:
    return hashlib.sha256(data).hexdigest()


def tar_of(files: Files, time: int, front: str = "") -> bytes:
    """A tar.gz. Each name begins with the front."""
    plain, packed = io.BytesIO(), io.BytesIO()
    with tarfile.open(fileobj=plain, mode="w", format=tarfile.USTAR_FORMAT) as tar:
        for folder in sorted({str(it) for name in files for it in pathlib.PurePosixPath(name).parents} - {"."}):
            info = tarfile.TarInfo(front + folder)
            info.type, info.mode, info.mtime = tarfile.DIRTYPE, 0o755, time
            tar.addfile(info)
        for name, file in sorted(files.items()):
            info = tarfile.TarInfo(front + name)
            info.size, info.mode, info.mtime = len(file.data), file.mode, time
            if file.link:
                info.type, info.mode, info.linkname = tarfile.SYMTYPE, 0o777, file.link
            tar.addfile(info, io.BytesIO(file.data))
    with gzip.GzipFile(fileobj=packed, mode="wb", mtime=time, filename="") as out:
        out.write(plain.getvalue())
    return packed.getvalue()


def deb_of(files: Files, version: str, time: int) -> bytes:
    """A Debian package: an `ar` of three members. No license is named, since none is chosen."""
    size = sum(len(it.data) for it in files.values()) // 1024 + 1
    control = f"""Package: evacplan
Version: {version}
Architecture: amd64
Maintainer: evacplan
Section: science
Priority: optional
Installed-Size: {size}
Recommends: python3 (>= 3.9)
Description: {SUMMARY}
 {DESCRIPTION}
"""
    sums = "".join(f"{hashlib.md5(file.data).hexdigest()}  {name}\n" for name, file in sorted(files.items()) if not file.link)
    about = tar_of({"control": File(control.encode()), "md5sums": File(sums.encode())}, time, "./")
    out = b"!<arch>\n"
    for name, data in (
        ("debian-binary", b"2.0\n"),
        ("control.tar.gz", about),
        ("data.tar.gz", tar_of(files, time, "./")),
    ):
        out += f"{name:<16}{time:<12}{0:<6}{0:<6}{'100644':<8}{len(data):<10}`\n".encode() + data + b"\n" * (len(data) % 2)
    return out


def wheel_of(files: Files, version: str, time: int) -> Tuple[str, bytes]:
    """The name and the bytes of a wheel."""
    info = f"evacask-{version}.dist-info"
    tags = "".join(f"Tag: py3-none-{it}\n" for it in PLATFORM.split("."))
    about = {
        "METADATA": f"Metadata-Version: 2.1\nName: evacask\nVersion: {version}\nSummary: {SUMMARY}\nRequires-Python: >=3.9\n",
        "WHEEL": f"Wheel-Version: 1.0\nGenerator: evacplan\nRoot-Is-Purelib: false\n{tags}",
        "entry_points.txt": "[console_scripts]\nevacask = evacask_start:main\nevacplan = evacask.client.program:run\n",
    }
    files = {**files, **{f"{info}/{name}": File(text.encode()) for name, text in about.items()}}
    rows = [
        f"{name},sha256={base64.urlsafe_b64encode(hashlib.sha256(it.data).digest()).rstrip(b'=').decode()},{len(it.data)}\n"
        for name, it in sorted(files.items())
    ]
    files[f"{info}/RECORD"] = File("".join([*rows, f"{info}/RECORD,,\n"]).encode())
    out = io.BytesIO()
    with zipfile.ZipFile(out, "w", zipfile.ZIP_DEFLATED) as wheel:
        for name, file in sorted(files.items()):
            entry = zipfile.ZipInfo(name, clock.gmtime(max(time, FIRST_TIME))[:6])
            entry.external_attr, entry.compress_type, entry.create_system = (0o100000 | file.mode) << 16, zipfile.ZIP_DEFLATED, 3
            wheel.writestr(entry, file.data)
    return f"evacask-{version}-py3-none-{PLATFORM}.whl", out.getvalue()
