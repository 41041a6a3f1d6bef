"""An archive that is unpacked anywhere: the launcher with the program, the tools, the examples and the pages."""
import gzip
import io
import os
import tarfile

from .source import Source, put


def make(source: Source, folder: str) -> str:
    """Writes the archive into a folder; the same commit and program give the same bytes."""
    name = f"lambda_local-{source.version}-x86_64-linux"
    files = {**source.files, "bin/lambda_local": (0o755, source.program), "PROVED": (0o644, source.proved)}
    room = io.BytesIO()
    with tarfile.open(fileobj=room, mode="w", format=tarfile.GNU_FORMAT) as tar:
        for path in sorted([*files, "bin/lambda_local.proved"]):
            member = tarfile.TarInfo(f"{name}/{path}")
            member.mtime = source.moment
            if path in files:
                member.mode, data = files[path]
                member.size = len(data)
                tar.addfile(member, io.BytesIO(data))
            else:
                member.type, member.linkname, member.mode = tarfile.SYMTYPE, "../PROVED", 0o777
                tar.addfile(member)
    return put(os.path.join(folder, name + ".tar.gz"), gzip.compress(room.getvalue(), 9, mtime=0))
