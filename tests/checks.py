"""Checks of the repository's own files. Each yields, of all that it looks at, whether it fits and what is wrong if it
doesn't, and has to look at a least count of things, so that none passes by finding nothing."""
import sys


def run(checks):
    """Runs the checks that the words of the command name, or all, and returns what is wrong, or None. `checks` has each
    by its name, with its least count."""
    faults = []
    for name in sys.argv[1:] or checks:
        check, least = checks[name]
        looked_at = list(check())
        print(f"{name}: {len(looked_at)} looked at")
        looked_at.append((len(looked_at) >= least, f"{name}: there were {least}"))
        faults += [fault for fits, fault in looked_at if not fits]
    return "\n".join(faults) or None
