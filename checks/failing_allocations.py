#!/usr/bin/env python3
"""failing_allocations.py [PROGRAM [FILE]]: makes each allocation of a run fail in turn, and reports how many were tried. The program
is out/pungi of the crate pungi, and the file data/x.c, which has one function, unless they are named. A run must then end with
status 8 and write nothing, or end as the run with ample memory does. It needs a C compiler."""
import os
import subprocess
import sys
import tempfile

HERE = os.path.dirname(os.path.abspath(__file__))
CRATE = os.path.join(HERE, "..", "crates", "pungi")

# An allocation is a call of malloc, calloc, realloc, aligned_alloc or posix_memalign once the program has begun. The one whose number is in
# FAILING fails. How many there were is written to the file that COUNTED names.
SHIM = r"""
#include <errno.h>
#include <stdio.h>
#include <stdlib.h>

static long seen, failing = -1;

static int fails(void) { return ++seen == failing; }

__attribute__((constructor)) static void begin(void) {
    const char *number = getenv("FAILING");
    seen = 0;
    failing = number ? atol(number) : -1;
}

__attribute__((destructor)) static void end(void) {
    const char *name = getenv("COUNTED");
    long all = seen;
    FILE *file = name ? fopen(name, "w") : NULL;
    if (file) { fprintf(file, "%ld\n", all); fclose(file); }
}

extern void *__libc_malloc(size_t), *__libc_calloc(size_t, size_t), *__libc_realloc(void *, size_t), *__libc_memalign(size_t, size_t);

void *malloc(size_t size) { return fails() ? NULL : __libc_malloc(size); }
void *calloc(size_t count, size_t size) { return fails() ? NULL : __libc_calloc(count, size); }
void *realloc(void *old, size_t size) { return fails() ? NULL : __libc_realloc(old, size); }
void *aligned_alloc(size_t to, size_t size) { return fails() ? NULL : __libc_memalign(to, size); }
int posix_memalign(void **out, size_t to, size_t size) {
    if (fails()) return ENOMEM;
    *out = __libc_memalign(to, size);
    return *out ? 0 : ENOMEM;
}
"""


def run(program, file, shim, counted, failing=None):
    env = {"LD_PRELOAD": shim, "COUNTED": counted}
    if failing is not None:
        env["FAILING"] = str(failing)
    ran = subprocess.run([program, os.path.basename(file)], cwd=os.path.dirname(file), env=env, capture_output=True, timeout=60)
    return ran.returncode, ran.stdout, ran.stderr


def main():
    program = os.path.abspath(sys.argv[1] if len(sys.argv) > 1 else os.path.join(CRATE, "out", "pungi"))
    file = os.path.abspath(sys.argv[2] if len(sys.argv) > 2 else os.path.join(CRATE, "data", "x.c"))
    with tempfile.TemporaryDirectory() as room:
        shim, counted = f"{room}/shim.so", f"{room}/counted"
        with open(f"{room}/shim.c", "w") as source:
            source.write(SHIM)
        subprocess.run(["cc", "-O1", "-shared", "-fPIC", "-o", shim, f"{room}/shim.c"], check=True)
        ample = run(program, file, shim, counted)
        with open(counted) as told:
            most = int(told.read())
        wrong = without_memory = 0
        for number in range(1, most + 1):
            ended = run(program, file, shim, counted, number)
            if ended[0] == 8 and not ended[1] and not ended[2]:
                without_memory += 1
            elif ended != ample:
                wrong += 1
                print(f"allocation {number}: {ended}")
        print(f"{most} allocations: {without_memory} runs ended with status 8 and wrote nothing, {most - without_memory - wrong} as with ample memory, {wrong} wrong")
    return 1 if wrong or not most else 0


if __name__ == "__main__":
    sys.exit(main())
