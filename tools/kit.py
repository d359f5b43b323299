"""The kit's rt, for the scripts here that need more of it than its commands give: .ci/edits and host/module.

rt is one Python program. What is taken of it: the crates of crates.txt, the words that the prover takes for one, and how it begins a check with what an
earlier one kept. Where a later kit has other names for these, these scripts stop and say so.
"""
import importlib.machinery
import importlib.util
import os
import shutil
import sys

sys.dont_write_bytecode = True


def the_kits_rt(root, who):
    """Returns the kit's rt as a module, at work in this checkout."""
    found = shutil.which("rt")
    if not found:
        sys.exit(f"{who}: FAILED: rt is not on the path: the kit is needed here")
    loader = importlib.machinery.SourceFileLoader("rt", os.path.realpath(found))
    made = importlib.util.module_from_spec(importlib.util.spec_from_loader("rt", loader))
    sys.modules["rt"] = made
    loader.exec_module(made)
    lacking = [it for it in ("checked", "edited", "edits_of", "in_lanes", "linked", "need", "seeded", "share_work", "stamp_of", "unread", "work_for", "OVER", "KIT") if not hasattr(made, it)]
    if lacking:
        sys.exit(f"{who}: FAILED: this kit's rt has no {lacking[0]}: tools/kit.py says what is taken of it")
    os.chdir(root)
    made.rtlib.guarded()
    # What rt says of a library that it builds first goes beside what is printed here.
    made.rtlib.Crate.out = sys.stderr
    made.share_work(False)
    return made


def crates(rt):
    found = rt.rtlib.crates_below(os.getcwd())
    for it in found:
        it.out = sys.stderr
        for below in it.below():
            below.out = sys.stderr
    return found


def has_libraries(crate):
    """Returns whether the libraries below the crate are there: those that `rt ci` left in this checkout, where no text has changed since, else those that rt builds."""
    below = crate.below()
    # (rt ci writes no stamp beside what it builds, and what it builds fits only what it built)
    by_ci = [os.path.isdir(it.rlib) and not os.path.exists(f"{it.folder}/out/rlib/stamp") and os.stat(it.rlib).st_mtime >= newest(it.folder) for it in below]
    return all(by_ci) or not any(it.build_rlib(["--jobs", "1"], anew=False) for it in below)


def newest(folder):
    """Returns when a text of the crate was last changed."""
    return max(os.stat(f"{at}/{it}").st_mtime for part in ("src", "specs", "proofs") for at, _, files in os.walk(f"{folder}/{part}") for it in files)
