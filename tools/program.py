"""Where a built program is: that of the gate and of bin/build in a checkout, that beside the tools where bin/install put them."""
import os

ROOT = os.path.dirname(os.path.dirname(os.path.realpath(__file__)))


def built(name="tq"):
    """The path of the built program, None where there is none: that of bin/ in a checkout would build it first."""
    path = f"{ROOT}/crates/{name}/out/{name}" if os.path.isdir(f"{ROOT}/crates") else f"{ROOT}/bin/{name}"
    return path if os.access(path, os.X_OK) else None
