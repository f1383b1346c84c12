"""Libraries that are loaded before the C library of a program (LD_PRELOAD). The kit's compiler builds them."""
import os
import subprocess

from hostile_rows.texts import Wrong

TARGET = "x86_64-unknown-linux-gnu"
OPTIONS = (f"--target={TARGET}", "--no-default-config", "-O1", "-fPIC", "-ffreestanding")


def call(*words, **how):
    """What a program prints that has to succeed."""
    return subprocess.run(words, check=True, capture_output=True, text=True, stdin=subprocess.DEVNULL, **how).stdout


def kit():
    """The folder of the kit: `rt doc` tells the path of a file at its top."""
    return os.path.dirname(call("rt", "doc").strip())


def compile_c(source, made):
    """Compiles a source in C, which declares all that it uses, since the kit has no headers."""
    call(f"{kit()}/toolchain/bin/clang", *OPTIONS, "-c", source, "-o", made)


def build(source, shim):
    """Builds such a library from one source in C. Every user may load it. Returns its path."""
    try:
        compile_c(source, f"{shim}.o")
        call(f"{kit()}/toolchain/bin/ld.lld", "-shared", f"{shim}.o", "-o", shim)
    except (OSError, subprocess.CalledProcessError) as fault:
        raise Wrong(f"the library of {os.path.basename(source)} does not build ({fault})") from fault
    os.chmod(shim, 0o755)
    return shim
