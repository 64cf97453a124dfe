"""Two ways to see the calls of a program on its files. Both answer lines in strace's form."""
from __future__ import annotations

import os
import shutil
import subprocess
from typing import Dict, Iterator, List, Union

from .program import ROOT, Failed

# All by which a file is read, written, cut or synced; `read` is that of the script too.
TRACED = ("openat,close,read,readv,pread64,preadv,preadv2,write,writev,pwrite64,pwritev,pwritev2,"
          "lseek,truncate,ftruncate,fallocate,fdatasync,fsync,msync,sync_file_range,sendfile,"
          "copy_file_range,rename,unlink")
# And that by which ipl has a number of its own for its chip's file.
COPIED = ",fcntl"


class Strace:
    """strace stops the program at each call; beside other work it then waits for its turn."""

    def __init__(self) -> None:
        if shutil.which("strace") is None:
            raise Failed("there is no strace")

    def command(self, words: List[str], told: int, has_paths: bool) -> List[str]:
        shown = ["-y", "-s", "0", "-e", f"trace={TRACED}"] if has_paths else [
            "-s", "16", "-e", f"trace={TRACED}{COPIED}"]
        return ["strace", "-f", "--seccomp-bpf", "-q", *shown, "-e", "signal=none", "-o",
                f"/dev/fd/{told}", *words]

    def environment(self, told: int, has_paths: bool) -> Dict[str, str]:
        return dict(os.environ)


class Preloaded:
    """A library in the process of the program tells its calls. It stands between the program and
    the C library, and sees no call that is made past that one."""

    def __init__(self, folder: str) -> None:
        self.library = os.path.join(folder, "calls.so")
        source = os.path.join(ROOT, "bench", "peers", "calls.c")
        subprocess.run(["cc", "-std=c11", "-O2", "-shared", "-fPIC", "-o", self.library, source],
                       check=True)

    def command(self, words: List[str], told: int, has_paths: bool) -> List[str]:
        return words

    def environment(self, told: int, has_paths: bool) -> Dict[str, str]:
        paths = {"PATHS": "1"} if has_paths else {}
        return {**os.environ, "LD_PRELOAD": self.library, "CALLS": str(told), **paths}


Tracer = Union[Strace, Preloaded]


def traced_lines(tracer: Tracer, words: List[str], script: str,
                 has_paths: bool) -> Iterator[str]:
    """Runs a program over a script, and answers a line for each call that is traced. Where it has
    paths, a file's number has its path behind it."""
    source, told = os.pipe()
    with open(script, "rb") as lines, os.fdopen(source, errors="replace") as trace:
        process = subprocess.Popen(tracer.command(words, told, has_paths), stdin=lines,
                                   stdout=subprocess.DEVNULL, stderr=subprocess.PIPE,
                                   pass_fds=[told], env=tracer.environment(told, has_paths))
        os.close(told)
        yield from trace
        noted = process.communicate()[1].decode()
        if process.returncode != 0:
            raise Failed(f"{words[0]} ended with {process.returncode}: {noted}")
