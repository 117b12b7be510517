"""The plain programs of this folder, compiled: what stands beside the measured program, and what makes the logs that it reads."""
import os, shutil, subprocess, sys

BENCH = os.path.dirname(os.path.realpath(__file__))


def compiled(compiler, name, folder, *options):
    """The program of this source, or None where the compiler, or a library among the options, isn't there."""
    target = f"{folder}/{name}"
    words = [compiler, "-std=c11", "-O2", "-pthread", "-o", target, f"{BENCH}/{name}.c", *options]
    return target if subprocess.run(words, capture_output=True).returncode == 0 else None


def rivals_in(folder, *options):
    """The rivals, made in this folder with these options, and the compiler that made them: the first that is there and can. Where none can it ends."""
    for compiler in filter(shutil.which, ("cc", "gcc", "clang")):
        rivals = compiled(compiler, "rivals", folder, *options)
        if rivals:
            return rivals, compiler
    return sys.exit(f"{os.path.basename(sys.argv[0])}: no C compiler (cc, gcc, clang) makes bench/rivals.c")
