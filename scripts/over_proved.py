#!/usr/bin/env python3
"""Runs `rt lib` or `rt run` of the crate in this folder, over the libraries that `rt ci` left in the folders of
the crates below.

    scripts/over_proved.py lib|run

`rt ci` leaves no stamps with its libraries, so `rt` would prove each of them again. Here they are taken as
built, which is right only in a copy over which `rt ci` has just passed. The crate itself is proved. A kit with
other scripts proves everything, as `rt` does.

KIT_TOOLCHAIN, if it is set, is a folder of tools in place of the kit's. If KIT_TARGET is set too, as
aarch64-unknown-linux-gnu, the crate is proved and built for that kind of machine. A program is then linked with the
archive KIT_SHIMS in place of the kit's functions of C, and is not run. `rt` has no word for either, so the commands of the
kit that it would run get other words.
"""
import importlib.util
import os
import subprocess
import sys

sys.dont_write_bytecode = True
kit = os.path.dirname(subprocess.run(["rt", "doc"], stdout=subprocess.PIPE, text=True, check=True).stdout.strip())
toolchain, target = os.environ.get("KIT_TOOLCHAIN"), os.environ.get("KIT_TARGET")
spec = importlib.util.spec_from_file_location("rtlib", os.path.join(kit, "bin", "rtlib.py"))
if not os.path.exists(spec.origin):
    if toolchain:
        sys.exit("over_proved.py: this kit's rt cannot be led to other tools")
    os.execvp("rt", ["rt", *sys.argv[1:]])
rtlib = importlib.util.module_from_spec(spec)
sys.modules["rtlib"] = rtlib
spec.loader.exec_module(rtlib)
rtlib.Crate.is_built = lambda crate: os.path.isdir(crate.rlib)
call = rtlib.Crate.call


def with_tools(words):
    """The words of a command of the kit, with the other tools, for the other target if there is one."""
    tool = os.path.basename(words[0])
    words = [toolchain if word == f"{kit}/toolchain" else word for word in words]
    if target and tool == "rattle":
        words[2:2] = ["--target", target]
    elif target and tool == "rattle-link":
        words[words.index("--target") + 1] = target
        words = [word for word in words if not word.startswith(f"{kit}/c/")] + [os.environ["KIT_SHIMS"]]
    return words


def call_with_tools(crate, *words, **more):
    words = with_tools(list(words))
    status = call(crate, *words, **more)
    if target and os.path.basename(words[0]) == "rattle-link":
        # the program of another machine, which `rt run` would start next
        sys.exit(status)
    return status


if toolchain:
    rtlib.Crate.call = call_with_tools
sys.exit(rtlib.main(*sys.argv[1:]))
