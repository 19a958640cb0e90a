"""Runs of the built program in bad company: processes that are killed, streams that are closed, broken or full, names that are
links, pipes, folders or devices, damaged logs, two processes at once, folders that change while they are listed, and limits.

Each case is a function that answers a list of what is wrong. `CASES` has them all.
"""

import contextlib
import os
import random
import resource
import shutil
import signal
import socket
import stat
import subprocess
import tempfile
import threading

from common import FIRST, PROGRAM, ROOT, contents, frame, limit_files, run

# How long a run that should be short may take.
SECONDS = 20
ROUNDS = 50


def expect(name, found, wanted):
    return [] if found == wanted else [f"{name} is {found!r}, not {wanted!r}"]


def scanned(folder):
    """The pairs that a new run finds, as they are spelled."""
    done = run(folder, [], b"scan\n")
    lines = done.stdout.decode().splitlines()
    if done.returncode != 0 or lines[-1:] != ["end"]:
        raise AssertionError(f"a scan ends with {done.returncode}: {done.stdout[-200:]!r} {done.stderr[-200:]!r}")
    return dict(line[len("pair ") :].split(" =") for line in lines[:-1])


# ---- killed


def random_write(rand):
    """An order that writes, and what it does to a map."""
    key, value = rand.choice("abcdefgh"), str(rand.randrange(10**rand.randrange(1, 6)))
    if rand.random() < 0.25:
        return f"del {key}", [(key, None)]
    if rand.random() < 0.2:
        other = rand.choice("abcdefgh")
        return f"batch put {key} ={value} del {other}", [(key, value), (other, None)]
    return f"put {key} ={value}", [(key, value)]


def after(writes, before):
    now = dict(before)
    for operations in writes:
        for key, value in operations:
            if value is None:
                now.pop(key, None)
            else:
                now[key] = value
    return now


def killed_run(folder, rand, before):
    """Ends a run behind a random reply, and answers what is wrong with the folder that it leaves, and its map."""
    orders = []
    for _ in range(rand.randrange(1, 60)):
        orders.append(("sync", None) if rand.random() < 0.15 else random_write(rand))
    process = subprocess.Popen([PROGRAM], cwd=folder, stdin=subprocess.PIPE, stdout=subprocess.PIPE, stderr=subprocess.DEVNULL)
    process.stdin.write("".join(order + "\n" for order, _ in orders).encode())
    process.stdin.flush()
    replies = rand.randrange(0, len(orders) + 1)
    told = [process.stdout.readline() for _ in range(replies)]
    process.kill()
    process.stdin.close()
    # What was written to the pipe before the end was told too.
    told += process.stdout.read().splitlines(keepends=True)
    process.wait()
    process.stdout.close()
    acknowledged = sum(operations is not None for _, operations in orders[: len(told)])
    writes = [operations for _, operations in orders if operations is not None]
    found = scanned(folder)
    if any(line != b"ok\n" for line in told):
        return [f"told {told!r}"], found
    if all(found != after(writes[:count], before) for count in range(acknowledged, len(writes) + 1)):
        return [f"{found} is after no prefix of {writes} from {before} with {acknowledged} acknowledged"], found
    return [], found


def killed_fifty_times():
    rand = random.Random(20261201)
    with tempfile.TemporaryDirectory() as folder:
        now = {}
        for _ in range(ROUNDS):
            wrong, now = killed_run(folder, rand, now)
            if wrong:
                return wrong
            if len(os.listdir(folder)) > 40:
                for name in os.listdir(folder):
                    os.remove(os.path.join(folder, name))
                now = {}
    return []


# ---- standard streams


def closed(*streams):
    def close():
        for stream in streams:
            os.close(stream)

    return close


def with_streams(script, before=None, stdout=subprocess.PIPE, start=()):
    """The status, what was told and the map that is left, of a run whose streams were changed."""
    with tempfile.TemporaryDirectory() as folder:
        if start:
            run(folder, [], "".join(line + "\n" for line in start).encode())
        done = subprocess.run(
            [PROGRAM], cwd=folder, input=script, stdout=stdout, stderr=subprocess.PIPE, timeout=SECONDS, check=False, preexec_fn=before
        )
        return done.returncode, done.stdout, scanned(folder)


def standard_output_closed():
    status, _, found = with_streams(b"put a =1\nput b =2\nsync\nput c =3\n", closed(1))
    return expect("the status", status, 4) + expect("the map", found, {"a": "1"})


def standard_input_closed():
    status, told, found = with_streams(b"", closed(0), start=["put a =1"])
    return expect("the status", status, 3) + expect("what was told", told, b"") + expect("the map", found, {"a": "1"})


def standard_error_closed():
    status, told, found = with_streams(b"put a =1\nsync\nget a\n", closed(2))
    return expect("the status", status, 0) + expect("what was told", told, b"ok\nok\nvalue =1\n") + expect("the map", found, {"a": "1"})


def all_streams_closed():
    status, _, found = with_streams(b"", closed(0, 1, 2), start=["put a =1"])
    return expect("the status", status, 3) + expect("the map", found, {"a": "1"})


def standard_output_full():
    with open("/dev/full", "wb") as full:
        status, _, found = with_streams(b"put a =1\nput b =2\n", stdout=full)
    return expect("the status", status, 4) + expect("the map", found, {"a": "1"})


def pipe_closed_early():
    reading, writing = os.pipe()
    os.close(reading)
    status, _, found = with_streams(b"put a =1\nput b =2\n", stdout=writing)
    os.close(writing)
    return expect("the status", status, 4) + expect("the map", found, {"a": "1"})


# ---- names that are no regular files


def make_link(path):
    os.symlink("../out/real", path)


def make_dangling_link(path):
    os.symlink("nowhere", path)


def make_socket(path):
    with socket.socket(socket.AF_UNIX) as listener:
        here = os.getcwd()
        os.chdir(os.path.dirname(path))
        listener.bind(os.path.basename(path))
        os.chdir(here)


def make_device(path):
    """The device of /dev/null; a socket where this user may make no device."""
    try:
        os.mknod(path, stat.S_IFCHR | 0o600, os.makedev(1, 3))
    except PermissionError:
        make_socket(path)


THINGS = {"a link": make_link, "a dangling link": make_dangling_link, "a pipe": os.mkfifo, "a folder": os.mkdir, "a device": make_device}


def thing_as_log(make):
    """The next log's name is taken by a thing that is no file."""

    def case():
        with tempfile.TemporaryDirectory() as base:
            folder, out = os.path.join(base, "folder"), os.path.join(base, "out")
            os.mkdir(folder)
            os.mkdir(out)
            with open(os.path.join(out, "real"), "wb") as file:
                file.write(b"of another")
            make(os.path.join(folder, "000002.log"))
            before = os.lstat(os.path.join(folder, "000002.log"))
            done = run(folder, [], b"put a =1\n", seconds=SECONDS)
            now = os.lstat(os.path.join(folder, "000002.log"))
            wrong = expect("the status", done.returncode, 5) + expect("what was told", done.stdout, b"")
            wrong += expect("the thing", (now.st_mode, now.st_ino), (before.st_mode, before.st_ino))
            wrong += expect("the file outside", contents(out), {"real": b"of another"})
            wrong += expect("the folder", os.listdir(folder), ["000002.log"])
            first = done.stderr.decode().splitlines()[:1]
            return wrong + expect("standard error", first, ["blob_shell: create 000002.log: not a regular file"])

    return case


def things_of_others():
    """Links, pipes and folders with other names are left alone."""
    with tempfile.TemporaryDirectory() as folder:
        for place, make in enumerate(THINGS.values()):
            make(os.path.join(folder, f"thing{place}"))
        before = sorted(os.listdir(folder))
        done = run(folder, [], b"put a =1\nsync\nreopen\nget a\n", seconds=SECONDS)
        wrong = expect("the status", done.returncode, 0) + expect("what was told", done.stdout, b"ok\nok\nok\nvalue =1\n")
        return wrong + expect("the names", sorted(os.listdir(folder)), sorted(before + ["000002.log", "000003.log"]))


# ---- damaged logs


def damaged_middle_log():
    """A byte of the second of three logs is changed: the reply names the third, and standard error where the second was left."""
    with tempfile.TemporaryDirectory() as folder:
        for key in "abc":
            run(folder, [], f"put {key} =1\nput {key} =2\n".encode())
        path = os.path.join(folder, "000003.log")
        with open(path, "r+b") as file:
            file.seek(24 + 20)
            file.write(b"?")
        before = contents(folder)
        done = run(folder, [], b"scan\n")
        wrong = expect("the status", done.returncode, 7) + expect("what was told", done.stdout, b"error corrupt 000004.log 24\n")
        wrong += expect("the folder", contents(folder), before)
        lines = done.stderr.decode().splitlines()
        return wrong + expect("the last line", lines[-1:], ["blob_shell: 000003.log: read up to byte 24 of 48: checksum"])


def early_end(data, wanted):
    """A lone log with these bytes behind one record: its reading ends there, and standard error says so at status 0."""

    def case():
        with tempfile.TemporaryDirectory() as folder:
            run(folder, [], b"put a =1\n")
            with open(os.path.join(folder, "000002.log"), "ab") as file:
                file.write(data)
            done = run(folder, [], b"scan\n")
            wrong = expect("the status", done.returncode, 0) + expect("what was told", done.stdout, b"pair a =1\nend\n")
            return wrong + expect("standard error", done.stderr.decode().splitlines(), [f"blob_shell: 000002.log: {wanted}"])

    return case


def no_file_can_be_opened():
    """With as many files open as the process may have, nothing can be read: standard error says too that the logs were not looked through."""

    def limit():
        resource.setrlimit(resource.RLIMIT_NOFILE, (4, 4))

    with tempfile.TemporaryDirectory() as folder:
        run(folder, [], b"put a =1\n")
        before = contents(folder)
        done = subprocess.run([PROGRAM], cwd=folder, input=b"scan\n", capture_output=True, timeout=SECONDS, check=False, preexec_fn=limit)
        wrong = expect("the status", done.returncode, 5) + expect("what was told", done.stdout, b"")
        wrong += expect("the folder", contents(folder), before)
        last = done.stderr.decode().splitlines()[-1:]
        return wrong + expect("the last line", last, ["blob_shell: not every log was looked through: the folder could not be read"])


# ---- two processes


@contextlib.contextmanager
def holding(folder):
    """A process that uses the folder, and waits for its script."""
    process = subprocess.Popen([PROGRAM], cwd=folder, stdin=subprocess.PIPE, stdout=subprocess.PIPE, stderr=subprocess.DEVNULL)
    try:
        process.stdin.write(b"put a =1\n")
        process.stdin.flush()
        if process.stdout.readline() != b"ok\n":
            raise AssertionError("the first process does not answer")
        yield process
    finally:
        process.kill()
        process.wait()
        process.stdin.close()
        process.stdout.close()


def second_process():
    with tempfile.TemporaryDirectory() as folder:
        with holding(folder) as first:
            before = contents(folder)
            second = run(folder, [], b"put a =2\n", seconds=SECONDS)
            wrong = expect("the second status", second.returncode, 5) + expect("what it told", second.stdout, b"")
            wrong += expect("the folder", contents(folder), before)
            if b"another process uses this folder" not in second.stderr:
                wrong.append(f"standard error is {second.stderr!r}")
            told, _ = first.communicate(b"get a\n", timeout=SECONDS)
            wrong += expect("the first status", first.returncode, 0) + expect("what it told", told, b"value =1\n")
        return wrong + expect("the map", scanned(folder), {"a": "1"})


def lock_of_a_killed_process():
    with tempfile.TemporaryDirectory() as folder:
        with holding(folder):
            pass
        return expect("the map", scanned(folder), {"a": "1"}) + expect("the names", sorted(os.listdir(folder)), ["000002.log", "000003.log"])


# ---- a folder that changes


def files_leave_while_listed():
    """Files of others come and go all the time, and no run fails for it."""
    with tempfile.TemporaryDirectory() as folder:
        ends = threading.Event()

        def come_and_go():
            paths = [os.path.join(folder, f"other{place}") for place in range(200)]
            while not ends.is_set():
                for path in paths:
                    with open(path, "wb"):
                        pass
                for path in paths:
                    os.remove(path)

        other = threading.Thread(target=come_and_go)
        other.start()
        try:
            statuses = {run(folder, [], b"reopen\nreopen\nreopen\n").returncode for _ in range(25)}
        finally:
            ends.set()
            other.join()
        return expect("the statuses", statuses, {0})


# ---- limits


def file_limit(ignored):
    """A log may not get past a limit: a failure of the disk, whether the signal that goes with it is ignored or not."""

    def limit():
        resource.setrlimit(resource.RLIMIT_FSIZE, (50, 50))

    def case():
        with tempfile.TemporaryDirectory() as folder:
            done = subprocess.run(
                [PROGRAM],
                cwd=folder,
                input=b"put a =xyz\nput b =xyz\nget a\n",
                capture_output=True,
                timeout=SECONDS,
                check=False,
                preexec_fn=(lambda: limit_files(50)) if ignored else limit,
            )
            wrong = expect("the status", done.returncode, 5) + expect("what was told", done.stdout, b"ok\n")
            wrong += expect("the size", len(contents(folder)["000002.log"]), 50) + expect("the map", scanned(folder), {"a": "xyz"})
            first = done.stderr.decode().splitlines()[:1]
            if not first or not first[0].startswith("blob_shell: append to 000002.log: "):
                wrong.append(f"standard error begins with {first}")
            return wrong

    return case


# ---- the script that builds

STAND_IN = r"""#!/bin/sh
# Builds by contents, as `rt run` does, and runs what it built.
test "$1 $2" = "run --" || exit 9
shift 2
if test -e ../../fails; then echo "error: not proved"; exit 1; fi
now=$(cat ../*/src/*.rt | cksum)
if test "$now" != "$(cat out/built 2>/dev/null)"; then
    mkdir -p out
    echo "$now" >out/built
    cat >out/bl_main <<'END'
#!/bin/sh
test $# = 0 || { echo "blob_shell: no words are taken" >&2; exit 2; }
cat
END
    chmod +x out/bl_main
fi
echo built >>../../calls
out/bl_main "$@"
"""


def script_builds_by_contents():
    with tempfile.TemporaryDirectory() as top:
        shutil.copy(os.path.join(ROOT, "blob_shell"), top)
        for crate, below in {"bl_main": "bl_store", "bl_store": "", "bl_apart": ""}.items():
            os.makedirs(os.path.join(top, "crates", crate, "src"))
            with open(os.path.join(top, "crates", crate, "src", "lib.rt"), "w", encoding="utf-8") as file:
                file.write(crate)
            with open(os.path.join(top, "crates.txt"), "a", encoding="utf-8") as file:
                file.write(f"# Of {crate}.\n{crate}: {below}\n")
        os.mkdir(os.path.join(top, "bin"))
        with open(os.path.join(top, "bin", "rt"), "w", encoding="utf-8") as file:
            file.write(STAND_IN)
        os.chmod(os.path.join(top, "bin", "rt"), 0o755)
        store, apart = (os.path.join(top, "crates", crate, "src", "lib.rt") for crate in ("bl_store", "bl_apart"))
        path = {**os.environ, "PATH": os.path.join(top, "bin") + ":" + os.environ["PATH"]}

        def call(what, status, builds):
            done = subprocess.run(
                [os.path.join(top, "blob_shell")], input=b"x\n", capture_output=True, timeout=SECONDS, check=False, env=path, cwd=top
            )
            calls = os.path.join(top, "calls")
            counted = len(open(calls, encoding="utf-8").read().split()) if os.path.exists(calls) else 0
            wrong = expect(f"the status {what}", done.returncode, status) + expect(f"what was told {what}", done.stdout, b"x\n" if status == 0 else b"")
            return wrong + expect(f"the count of builds {what}", counted, builds)

        def write(file_path, text):
            with open(file_path, "w", encoding="utf-8") as file:
                file.write(text)

        wrong = call("at first", 0, 1) + call("again", 0, 1)
        os.utime(store)
        wrong += call("after a touch", 0, 1)
        write(apart, "changed")
        wrong += call("after an edit apart", 0, 1)
        write(store, "changed")
        wrong += call("after an edit", 0, 2)
        write(store, "bl_store")
        wrong += call("after a checkout back", 0, 3) + call("again", 0, 3)
        write(store, "wrong")
        write(os.path.join(top, "fails"), "")
        wrong += call("where the build fails", 1, 3)
        os.remove(os.path.join(top, "fails"))
        return wrong + call("once it is mended", 0, 4)


CASES = {
    "killed fifty times": killed_fifty_times,
    "standard output is closed": standard_output_closed,
    "standard input is closed": standard_input_closed,
    "standard error is closed": standard_error_closed,
    "all standard streams are closed": all_streams_closed,
    "standard output is full": standard_output_full,
    "a pipe that is closed early": pipe_closed_early,
    **{f"{name} in the place of a log": thing_as_log(make) for name, make in THINGS.items()},
    "links, pipes and folders of others": things_of_others,
    "a damaged middle log": damaged_middle_log,
    "a log that ends in a torn record": early_end(frame(b"of a record")[:-3], "read up to byte 24 of 39: cut off"),
    "a log that ends in an unknown type": early_end(b"\0\0\0\0\0\0\7", "read up to byte 24 of 31: type"),
    "a log whose fragments do not fit each other": early_end(
        frame(b"half", FIRST) + frame(b"whole"), "read up to byte 35 of 47: order of fragments"
    ),
    "no file can be opened": no_file_can_be_opened,
    "a second process": second_process,
    "the lock of a killed process": lock_of_a_killed_process,
    "files that leave while they are listed": files_leave_while_listed,
    "a limit, with the signal ignored": file_limit(True),
    "a limit, with the signal as it is by default": file_limit(False),
    "the script builds by contents": script_builds_by_contents,
}
