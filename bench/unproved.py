"""Makes the program without a proof, optimised, so that a change can be measured before it is proved. It takes ten minutes
of processor.

    python3 bench/unproved.py OUT
    python3 bench/unproved.py OUT --without-checks

`rt try` compiles the crates to bitcode, with a check at each access, and has clang translate that without optimising it.
This takes the bitcode as clang begins, and translates it as that of proved crates is. So OUT has these checks, is slower
than the program that is built of proved crates, and is covered by no proof: two that were made so are compared, and
profiles are taken of one. Without checks it is as fast as a proved one, and a wrong access in it does anything.
"""

import glob
import os
import shutil
import signal
import subprocess
import sys
import tempfile
import time
from pathlib import Path

CENTRAL = Path(__file__).resolve().parent.parent / "crates" / "central"
TARGET = "x86_64-unknown-linux-gnu"
# the call of a check, in the text of bitcode, and the call before one that ends the program
CHECK = 'call void @"rattle-llvm-checks::'
TRAP = "call void @llvm.trap()"
# as a program of proved crates is translated
FLAGS = (
    f"--target={TARGET} -march=x86-64 -mllvm -no-trap-after-noreturn -ffunction-sections -fdata-sections "
    "-mllvm -trap-unreachable -mllvm -no-x86-call-frame-opt -mllvm -disable-machine-licm "
    "-mllvm -disable-postra-machine-licm -mllvm -sink-common-insts=false --no-default-config -no-canonical-prefixes "
    "-fintegrated-cc1 -fPIE -O3 -Xclang -fmerge-functions -mllvm -mergefunc-use-aliases -c -x ir"
).split()
# the bitcode of the program has some 70 MB; `rt try` compiles small ones before it
LEAST = 1_000_000
LONGEST_SECONDS = 1800


def kit():
    """The folder of the toolchain."""
    return Path(subprocess.run(["rt", "doc"], stdout=subprocess.PIPE, text=True, check=True).stdout.strip()).parent


def translated(process):
    """The bitcode that clang translates for a run of `rt try`, once it does, and the process that called it."""
    end = time.monotonic() + LONGEST_SECONDS
    while process.poll() is None and time.monotonic() < end:
        for command in glob.glob("/proc/[0-9]*/cmdline"):
            try:
                words = Path(command).read_bytes().split(b"\0")
                folder = Path(os.readlink(Path(command).with_name("cwd")))
            except OSError:
                continue
            if words[0].endswith(b"/clang") and b"module.bc" in words:
                bitcode, caller = folder / "module.bc", parent(Path(command).parent)
                if parent(Path("/proc", str(caller))) == process.pid and bitcode.stat().st_size > LEAST:
                    return bitcode, caller
        time.sleep(0.2)
    sys.exit(f"rt try ended before clang began: {process.communicate()[0].decode()[-400:]}")


def parent(process):
    """The process that began one."""
    return int((process / "stat").read_text().rsplit(")", 1)[1].split()[1])


def without_checks(clang, bitcode, text):
    """Writes the bitcode as text, without the calls of its checks: what a failed check led to is then unreachable."""
    checked = f"{text}.checked"
    as_text = [f"--target={TARGET}", "-x", "ir", bitcode, "-S", "-emit-llvm", "-O0", "-o", checked]
    subprocess.run([*clang, *as_text], check=True)
    with open(checked) as lines, open(text, "w") as kept:
        last = ""
        for line in lines:
            if CHECK in line:
                last = "" if TRAP in last else last
                continue
            kept.write(last)
            last = line.replace(" sanitize_address", "") if line.startswith("attributes") else line
        kept.write(last)
    return text


def main():
    out = os.path.abspath(sys.argv[1])
    tools = kit()
    words = ["rt", "try", "--seconds", "3000", "--", "--version"]
    process = subprocess.Popen(words, cwd=CENTRAL, stdout=subprocess.PIPE, stderr=subprocess.STDOUT)
    with tempfile.TemporaryDirectory() as folder:
        bitcode, compiled = f"{folder}/module.bc", f"{folder}/module.o"
        found, caller = translated(process)
        shutil.copy(found, bitcode)
        for begun in (process.pid, caller):
            os.kill(begun, signal.SIGTERM)
        clang = [f"{tools}/toolchain/bin/clang", f"--sysroot={tools}/toolchain"]
        if "--without-checks" in sys.argv[2:]:
            bitcode = without_checks(clang, bitcode, f"{folder}/module.ll")
        subprocess.run([*clang, *FLAGS, bitcode, "-o", compiled], check=True)
        libraries = [f"{tools}/c/libos_c.a", f"{tools}/c/liblibc_c.a"]
        link = [f"{tools}/bin/rattle-link", "--target", TARGET, "--toolchain", f"{tools}/toolchain", "-o", out]
        subprocess.run([*link, compiled, *libraries], check=True)


if __name__ == "__main__":
    main()
