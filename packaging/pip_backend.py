"""What pip calls for `pip install .`: the wheel with the library inside that is built here, if there is one."""
import os
import sys

from make_wheel import TOP, make_wheel

# The library as `make rust` leaves it, else as it is proved
LIBRARIES = ("rust/libldvbi.so.3", "libldvbi.so.3")


def build_wheel(folder, settings=None, metadata=None):
    """Makes the wheel in a folder, and answers its name. Without a library two lines say how to get one."""
    built = [path for path in (os.path.join(TOP, name) for name in LIBRARIES) if os.path.exists(path)]
    if not built:
        sys.exit("ldvbi: the library isn't built; in %s:\n    make rust && make wheel\n"
                 "    pip install dist/*.whl" % TOP)
    return os.path.basename(make_wheel(built[0], folder))
