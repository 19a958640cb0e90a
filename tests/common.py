"""What the end-to-end checks share: the program, its runs, and the bytes of a log."""

import os
import resource
import signal
import struct
import subprocess

HERE = os.path.dirname(os.path.abspath(__file__))
ROOT = os.path.dirname(HERE)
# Another program can be tried by its path in BLOB_SHELL.
PROGRAM = os.environ.get("BLOB_SHELL") or os.path.join(ROOT, "crates", "bl_main", "out", "bl_main")


def crc32c(data):
    """Bit by bit, so that it shares nothing with the program's."""
    crc = 0xFFFFFFFF
    for byte in data:
        crc ^= byte
        for _ in range(8):
            crc = (crc >> 1) ^ (0x82F63B78 if crc & 1 else 0)
    return crc ^ 0xFFFFFFFF


# The types of a fragment that holds a whole record, and of one that begins a record.
FULL, FIRST = 1, 2


def frame(payload, kind=FULL):
    """One fragment of a log."""
    crc = crc32c(bytes([kind]) + payload)
    masked = (((crc >> 15) | (crc << 17)) + 0xA282EAD8) & 0xFFFFFFFF
    return struct.pack("<IHB", masked, len(payload), kind) + payload


def limit_files(size):
    """Lets a write past so many bytes of a file fail, where by default it would end a program."""
    signal.signal(signal.SIGXFSZ, signal.SIG_IGN)
    resource.setrlimit(resource.RLIMIT_FSIZE, (size, size))


def run(folder, words, script, file_limit=None, seconds=300):
    before = None if file_limit is None else lambda: limit_files(file_limit)
    return subprocess.run(
        [PROGRAM, *words], cwd=folder, input=script, capture_output=True, timeout=seconds, check=False, preexec_fn=before
    )


def contents(folder):
    """The bytes of the regular files."""
    found = {}
    for name in os.listdir(folder):
        if not os.path.isfile(os.path.join(folder, name)):
            continue
        with open(os.path.join(folder, name), "rb") as file:
            found[name] = file.read()
    return found
