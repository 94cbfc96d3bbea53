"""The cases of tests/program, which starts this: python3 tests/program.py PROGRAM

Each case is a function of one of the modules below, named by its first line. All that it starts listens on 127.0.0.1, at
ports that are free, and ends with it; a case that takes longer than its time (CASE_TIME, or its own `time`) has failed.
One that this machine has no means for says so, and counts as neither."""
import os
import resource
import shutil
import signal
import sys
import tempfile
import traceback

import program_admin
import program_backends
import program_chunked
import program_container
import program_drains
import program_ends
import program_figures
import program_kept
import program_log
import program_loops
import program_names
import program_passed
import program_places
import program_serve
import program_servers
import program_turns
import program_waits
from program_room import CASE_TIME, Room, Untried, Wrong

MODULES = [
    program_admin, program_drains, program_figures, program_backends, program_servers, program_container, program_ends,
    program_serve, program_places, program_loops, program_passed, program_chunked, program_turns, program_names,
    program_waits, program_log, program_kept,
]


def late(_signal, _frame):
    raise Wrong("it takes longer than it may")


def way_to(why):
    """The lines of the cases by which it came to that."""
    frames = traceback.extract_tb(why.__traceback__)[1:]
    return " < ".join(f"{os.path.basename(frame.filename)}:{frame.lineno}" for frame in reversed(frames))


def try_case(case, program):
    """Runs one case. Returns whether it passed, None where it was not tried."""
    name = case.__doc__
    folder = tempfile.mkdtemp(prefix="program-")
    os.chmod(folder, 0o755)
    room = Room(folder, shutil.copy(program, f"{folder}/connect_gateway"))
    signal.alarm(getattr(case, "time", CASE_TIME))
    try:
        case(room)
    except Untried as why:
        print(f"not tried: {name}: {why}")
        return None
    except Exception as why:  # as where it ended before it was looked at
        print(f"FAILED {name}: {why!r}, {way_to(why)}")
        return False
    finally:
        signal.alarm(0)
        room.end_all()
        shutil.rmtree(folder)
    print(name)
    return True


def main():
    program = sys.argv[1]
    most = resource.getrlimit(resource.RLIMIT_NOFILE)[1]
    resource.setrlimit(resource.RLIMIT_NOFILE, (most, most))
    signal.signal(signal.SIGALRM, late)
    cases = [value for module in MODULES for name, value in vars(module).items() if name.startswith("case_")]
    passed = [try_case(case, program) for case in cases]
    print(f"{passed.count(True)} passed, {passed.count(False)} failed")
    return 1 if False in passed else 0


if __name__ == "__main__":
    sys.exit(main())
