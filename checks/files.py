"""Files that are put whole or not at all, and what a name may be."""
import os
import stat
import subprocess

from case import Case, expect, expect_that
from reference import croquet

SCRIPT = b"join 7 0\n" + b"".join(b"send 7 1 %d 0 %s\n" % (number, b"ab" * 20)
                                  for number in range(1, 401))
WORDS = ["stamp", "s", "--log", "f"]
# No file gets longer than 4,096 bytes: a write of more fails, or ends the program.
LIMIT = "ulimit -f 8; exec \"$@\""
FAILING = ["/bin/sh", "-c", f"trap '' XFSZ; {LIMIT}", "sh"]
ENDING = ["/bin/sh", "-c", LIMIT, "sh"]


def log_of_script():
    return croquet.stamped(SCRIPT)[0].encoded()


def a_file_that_cannot_be_whole_leaves_the_old_one(program):
    expect_that(len(log_of_script()) > 4_096, "a log that is too long", len(log_of_script()))
    run = program.launched_by(*FAILING).run(WORDS, {"s": SCRIPT, "f": b"old"})
    expect(("write-fault [5]", {}), (run.told(), run.files))


def a_file_that_cannot_be_whole_is_not_there(program):
    run = program.launched_by(*FAILING).run(WORDS, {"s": SCRIPT})
    expect(("write-fault [5]", {}), (run.told(), run.files))


def a_kill_in_the_midst_leaves_the_old_file(program):
    """The signal that comes of a file that is too long ends the program, where it does not look for it."""
    started = program.launched_by(*ENDING).start(WORDS, {"s": SCRIPT, "f": b"old"})
    run = started.end()
    expect_that(run.status != 0 and "f" not in run.files, "the old file", (run.status, run.files.get("f")))


GOING_ON = ["stamp", "s", "--from", "f", "--log", "f"]


def a_session_that_cannot_be_whole_leaves_the_old_one(program):
    """The file that a session goes on from is the one that it is to be written to."""
    run = program.launched_by(*FAILING).run(GOING_ON, {"s": b"leave 7 1 0\n", "f": log_of_script()})
    expect(("write-fault [5]", {}), (run.told(), run.files))


def a_kill_in_the_midst_leaves_the_old_session(program):
    run = program.launched_by(*ENDING).run(GOING_ON, {"s": b"leave 7 1 0\n", "f": log_of_script()})
    expect_that(run.status != 0 and "f" not in run.files, "the old file", (run.status, run.files.get("f")))


def a_session_takes_the_place_of_the_one_that_it_goes_on_from(program):
    run = program.run(GOING_ON, {"s": b"leave 7 1 0\ntick 900\n", "f": log_of_script()})
    session, lines = croquet.stamped(b"leave 7 1 0\ntick 900\n", log_of_script())
    expect((" / ".join(lines), {"f": session.encoded()}), (run.told(), run.files))


def a_file_takes_the_place_of_the_old_one(program):
    run = program.run(WORDS, {"s": SCRIPT, "f": b"old" * 100_000})
    expect((0, {"f": log_of_script()}), (run.status, run.files))


def in_a_folder(program, prepare, look):
    """A run whose log is put into the folder `d`, which is made ready before, and looked at after it."""
    started = program.launched_by("/bin/sh", "-c", f"mkdir d; {prepare}; \"$@\"; status=$?; {look}; exit $status", "sh")
    return started.run(["stamp", "s", "--log", "d/f"], {"s": b"join 7 0\n"})


JOINED = "joined 1 1 0 0"


def no_other_name_is_left(program):
    run = in_a_folder(program, "echo old > d/f", "ls -A d; rm -r d")
    expect(f"{JOINED} / f", run.told())


def a_name_that_is_in_use_beside_it_is_left(program):
    run = in_a_folder(program, "echo mine > d/f.0.new", "cat d/f.0.new; ls -A d; rm -r d")
    expect(f"{JOINED} / mine / f / f.0.new", run.told())


def a_symbolic_link_stays_one(program):
    run = in_a_folder(program, "echo old > d/g; ln -s g d/f", "test -L d/f && wc -c < d/g; ls -A d; rm -r d")
    length = len(croquet.stamped(b"join 7 0\n")[0].encoded())
    expect(f"{JOINED} / {length} / f / g", run.told())


def a_folder_that_takes_no_file_has_the_file_written(program):
    run = in_a_folder(program, "echo old > d/f; chmod 555 d",
                      "chmod 755 d; wc -c < d/f; ls -A d; rm -r d")
    length = len(croquet.stamped(b"join 7 0\n")[0].encoded())
    expect(f"{JOINED} / {length} / f", run.told())


def a_folder_that_cannot_be_read_has_the_file_put(program):
    """Once it has its name, it counts as written."""
    run = in_a_folder(program, "echo old > d/f; chmod 333 d", "chmod 755 d; wc -c < d/f; ls -A d; rm -r d")
    length = len(croquet.stamped(b"join 7 0\n")[0].encoded())
    expect(f"{JOINED} / {length} / f", run.told())


def a_file_that_may_not_be_written_is_left(program):
    run = in_a_folder(program, "echo old > d/f; chmod 444 d/f", "cat d/f; ls -A d; rm -rf d")
    expect("write-fault / old / f [5]", run.told())


def a_name_may_be_as_long_as_the_system_takes(program):
    name = "n" * 255
    run = program.run(["stamp", "s", "--log", name], {"s": b"join 7 0\n"})
    expect((JOINED, [name]), (run.told(), list(run.files)))


def may_mount():
    """Whether the system lets a process have a file system of its own. Where it does not, that is said."""
    probe = ["unshare", "-rm", "mount", "-t", "tmpfs", "none", "/tmp"]
    try:
        done = subprocess.run(probe, stderr=subprocess.DEVNULL, check=False).returncode == 0
    except OSError:
        done = False
    if not done:
        print("files: a full disk is not tried, since no file system may be mounted here")
    return done


def a_disk_that_is_full_keeps_the_old_file(program):
    """A file system of 64 KiB, where the system lets a process have one of its own."""
    if not may_mount():
        return
    inner = "mount -t tmpfs -o size=64k none d && echo old > d/f && \"$@\"; status=$?; cat d/f; ls -A d; exit $status"
    script = f"mkdir d; unshare -rm /bin/sh -c '{inner}' sh \"$@\"; status=$?; rmdir d; exit $status"
    long = b"join 7 0\n" + b"".join(b"send 7 1 %d 0 %s\n" % (number, b"ab" * 200) for number in range(1, 401))
    full = program.launched_by("/bin/sh", "-c", script, "sh")
    expect("write-fault / old / f [5]", full.run(["stamp", "s", "--log", "d/f"], {"s": long}).told())


def a_disk_that_is_full_keeps_the_old_session(program):
    """A session goes on from a file that fills more than half of its disk."""
    if not may_mount():
        return
    stored = log_of_script()
    inner = ("mount -t tmpfs -o size=32k none d && cp f d/f && \"$@\"; status=$?; cmp f d/f && echo same; "
             "ls -A d; exit $status")
    script = f"mkdir d; unshare -rm /bin/sh -c '{inner}' sh \"$@\"; status=$?; rmdir d; exit $status"
    full = program.launched_by("/bin/sh", "-c", script, "sh")
    run = full.run(["stamp", "s", "--from", "d/f", "--log", "d/f"], {"s": b"leave 7 1 0\n", "f": stored})
    expect("write-fault / same / f [5]", run.told())


def a_device_is_written_as_it_is(program):
    run = program.run(["stamp", "s", "--log", "/dev/null"], {"s": b"join 7 0\n"})
    expect((JOINED, {}), (run.told(), run.files))
    expect_that(stat.S_ISCHR(os.stat("/dev/null").st_mode), "a device", "none")
    run = program.run(["stamp", "s", "--log", "/dev/full"], {"s": b"join 7 0\n"})
    expect(("write-fault [5]", {}), (run.told(), run.files))


CHECKS = [a_file_that_cannot_be_whole_leaves_the_old_one, a_file_that_cannot_be_whole_is_not_there,
          a_kill_in_the_midst_leaves_the_old_file, a_file_takes_the_place_of_the_old_one,
          no_other_name_is_left, a_name_that_is_in_use_beside_it_is_left, a_symbolic_link_stays_one,
          a_folder_that_takes_no_file_has_the_file_written, a_folder_that_cannot_be_read_has_the_file_put,
          a_file_that_may_not_be_written_is_left, a_name_may_be_as_long_as_the_system_takes,
          a_disk_that_is_full_keeps_the_old_file, a_disk_that_is_full_keeps_the_old_session,
          a_session_that_cannot_be_whole_leaves_the_old_one, a_kill_in_the_midst_leaves_the_old_session,
          a_session_takes_the_place_of_the_one_that_it_goes_on_from, a_device_is_written_as_it_is]
PARTS = {"files": lambda: [Case(check.__name__.replace("_", " "), check) for check in CHECKS]}
