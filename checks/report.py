"""Runs the cases of a part, and tells what came of them."""
import sys
import time
import traceback
from concurrent.futures import ThreadPoolExecutor

from case import Wrong

MOST_TOLD, MOST_NAME = 20, 600


def failure_of(case, program):
    """What is wrong with a case; None where it passes."""
    try:
        case.check(program)
        return None
    except Wrong as wrong:
        return f"    wanted  {wrong.wanted}\n    came    {wrong.came}"
    except Exception:  # What a wrong program makes of a check is a failure of the case.
        return "    " + traceback.format_exc().strip().replace("\n", "\n    ")


def failure_texts(part, title, failures):
    """What is told of failures."""
    told = [f"FAILED: {part}, {title}\n    case    {name[:MOST_NAME]}\n{failure}"
            for name, failure in failures[:MOST_TOLD]]
    if len(failures) > MOST_TOLD:
        told.append(f"FAILED: {part}, {title}: and {len(failures) - MOST_TOLD} more cases")
    return told


def run_cases(part, title, cases, program, workers, begun):
    """Runs the cases with this program, tells the failures, and gives whether there is none."""
    with ThreadPoolExecutor(workers) as pool:
        told = list(pool.map(lambda case: failure_of(case, program), cases))
    failures = [(case.name, failure) for case, failure in zip(cases, told) if failure]
    seconds = time.monotonic() - begun
    state = "all right" if not failures else f"{len(failures)} WRONG"
    line = f"{part}, {title}: {len(cases)} cases, {state}, {seconds:.1f} seconds\n"
    sys.stdout.write("\n".join([*failure_texts(part, title, failures), line]))
    sys.stdout.flush()
    return not failures
