#!/usr/bin/env python3
"""Refuses each growth of memory of one run in turn, and shows that the run ends with status 8 and MEMORY, or with
its own answer. Run it from the top of the repository: bench/refused_memory.py [FILE ...]

A small library, made here with gcc and loaded before the C library, refuses the call of the given number."""

import os
import shutil
import subprocess
import sys
import tempfile

TOP = os.path.dirname(os.path.dirname(os.path.abspath(__file__)))
PROGRAM = os.path.join(TOP, "crates", "lazycheck", "out", "lazycheck")
SHIM = r"""
#define _GNU_SOURCE
#include <dlfcn.h>
#include <errno.h>
#include <stdlib.h>

static long calls;

static int refused(void)
{
    const char *number = getenv("REFUSE");
    calls++;
    return number && calls == strtol(number, 0, 10);
}

#define NEXT(name) static typeof(&name) next; if (!next) next = (typeof(&name))dlsym(RTLD_NEXT, #name)

void *malloc(size_t size) { NEXT(malloc); if (refused()) { errno = ENOMEM; return 0; } return next(size); }
void *realloc(void *old, size_t size)
{ NEXT(realloc); if (refused()) { errno = ENOMEM; return 0; } return next(old, size); }
void *aligned_alloc(size_t align, size_t size)
{ NEXT(aligned_alloc); if (refused()) { errno = ENOMEM; return 0; } return next(align, size); }
int posix_memalign(void **to, size_t align, size_t size)
{ NEXT(posix_memalign); if (refused()) return ENOMEM; return next(to, align, size); }
"""


def run(shim, path, number):
    environment = dict(os.environ, LD_PRELOAD=shim, REFUSE=str(number))
    done = subprocess.run([PROGRAM, path], stdout=subprocess.PIPE, env=environment, check=False)
    return done.returncode, done.stdout.decode()


def main():
    gcc = shutil.which("gcc")
    if gcc is None or not os.access(PROGRAM, os.X_OK):
        sys.exit("needs gcc, and the program built: ./lazycheck examples/holds.c")
    paths = sys.argv[1:] or [os.path.join(TOP, "examples", name) for name in ("holds.c", "breaks.c")]
    with tempfile.TemporaryDirectory() as folder:
        source = os.path.join(folder, "refuse.c")
        shim = os.path.join(folder, "refuse.so")
        with open(source, "w") as file:
            file.write(SHIM)
        subprocess.run([gcc, "-O1", "-shared", "-fPIC", "-o", shim, source, "-ldl"], check=True)
        for path in paths:
            own = run(shim, path, 0)
            memory = 0
            last = 0
            for number in range(1, 400):
                got = run(shim, path, number)
                if got == (8, "MEMORY\n"):
                    memory += 1
                    last = number
                elif got != own:
                    sys.exit(f"{path}: call {number} refused: {got}")
            print(f"{path}: own answer has status {own[0]}; {memory} refusals end with MEMORY, the last is call {last}")


if __name__ == "__main__":
    main()
