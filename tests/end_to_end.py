"""Runs the built program over temporary folders, and compares what it tells, its status and the folder that it leaves.

A case is a JSON object of tests/cases/*.json:

  name        what it is called
  words       the words that the program is given
  script      its lines: text, or {"pre", "fill", "count"} for a text and a character repeated
  start       what is done to the folder before: {"put": NAME, "hex": BYTES}, {"put": NAME, "frame": BYTES} (one full
              fragment of a log), {"append": NAME, "hex": BYTES}, {"folder": NAME} or {"run": LINES} (an earlier run that
              ends well)
  file_limit  how many bytes a file may get; a write past them fails
  told        the lines told
  status      the exit status
  early       what standard error says of logs whose reading ends early
  names       all names left; sizes, the sizes of some files left; frames, the records of some logs left, in hexadecimal,
              each one full fragment
  unchanged   true where the folder is left as it was

hostile.py has more cases, as functions.
"""

import json
import os
import sys
import tempfile

from common import HERE, PROGRAM, contents, frame, run
from hostile import CASES


def line(item):
    if isinstance(item, str):
        return item
    return item["pre"] + item["fill"] * item["count"]


def text_of(lines):
    return "".join(line(item) + "\n" for item in lines).encode()


def prepare(folder, steps):
    for step in steps:
        if "run" in step:
            done = run(folder, [], text_of(step["run"]))
            if done.returncode != 0:
                raise AssertionError(f"the run before ends with {done.returncode}")
            continue
        if "folder" in step:
            os.mkdir(os.path.join(folder, step["folder"]))
            continue
        name = step.get("put") or step["append"]
        data = frame(bytes.fromhex(step["frame"])) if "frame" in step else bytes.fromhex(step["hex"])
        with open(os.path.join(folder, name), "wb" if "put" in step else "ab") as file:
            file.write(data)


def faults(case, folder):
    """What differs from what the case wants."""
    prepare(folder, case.get("start", []))
    before = contents(folder)
    done = run(folder, case.get("words", []), text_of(case["script"]), case.get("file_limit"))
    after = contents(folder)
    wanted = text_of(case["told"])
    if done.stdout != wanted:
        yield f"told {done.stdout[:200]!r}, not {wanted[:200]!r}"
    if done.returncode != case["status"]:
        yield f"status {done.returncode}, not {case['status']}"
    early = "".join(f"blob_shell: {text}\n" for text in case.get("early", [])).encode()
    advice = done.stderr.removesuffix(early)
    if not done.stderr.endswith(early) or (advice == b"") != (case["status"] == 0):
        yield f"standard error is {done.stderr[:200]!r} at status {done.returncode}"
    if case.get("unchanged") and after != before:
        yield f"the folder has {sorted(after)}, or other bytes than before"
    if "names" in case and sorted(after) != sorted(case["names"]):
        yield f"the folder has {sorted(after)}, not {sorted(case['names'])}"
    for name, size in case.get("sizes", {}).items():
        if len(after.get(name, b"")) != size or name not in after:
            yield f"{name} has {len(after[name]) if name in after else 'no'} bytes, not {size}"
    for name, records in case.get("frames", {}).items():
        data = b"".join(frame(bytes.fromhex(record)) for record in records)
        if after.get(name) != data:
            yield f"{name} is {after.get(name, b'').hex()}, not {data.hex()}"


def of_a_case(case):
    with tempfile.TemporaryDirectory() as folder:
        return list(faults(case, folder))


def main():
    if not os.path.exists(PROGRAM):
        sys.exit("the program is not built: run `rt ci` first")
    tries = {}
    for name in sorted(os.listdir(os.path.join(HERE, "cases"))):
        with open(os.path.join(HERE, "cases", name), encoding="utf-8") as file:
            for case in json.load(file):
                tries[case["name"]] = lambda case=case: of_a_case(case)
    tries.update(CASES)
    chosen = [name for name in tries if not sys.argv[1:] or any(word in name for word in sys.argv[1:])]
    passed = failed = 0
    for name in chosen:
        try:
            found = tries[name]()
        except Exception as error:  # A case that cannot be run has failed.
            found = [f"{type(error).__name__}: {error}"]
        for fault in found:
            print(f"{name}: {fault}")
        failed += bool(found)
        passed += not found
    print(f"{passed} passed, {failed} failed")
    sys.exit(1 if failed else 0)


if __name__ == "__main__":
    main()
