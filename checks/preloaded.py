"""A library that is put under a program by LD_PRELOAD, and the numbers that it shares with a check. Needs gcc."""

import mmap
import os
import struct
import subprocess
from pathlib import Path


class Preloaded:
    """The library of a C file in this folder. The variable names the file of the numbers, whose form is that of `struct`."""

    def __init__(self, folder, source, variable, form):
        library, path = os.path.join(folder, f"{source}.so"), os.path.join(folder, f"{source}.numbers")
        words = ["gcc", "-O2", "-shared", "-fPIC", "-o", library, Path(__file__).with_name(f"{source}.c"), "-ldl"]
        subprocess.run(words, check=True)
        self.form = form
        Path(path).write_bytes(bytes(struct.calcsize(form)))
        with open(path, "r+b") as file:
            self.numbers = mmap.mmap(file.fileno(), struct.calcsize(form))
        self.environment = {**os.environ, "LD_PRELOAD": library, variable: path}

    def write(self, *numbers):
        self.numbers[:] = struct.pack(self.form, *numbers)

    def read(self):
        return struct.unpack(self.form, self.numbers)
