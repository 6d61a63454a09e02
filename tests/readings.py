"""Whether a program reads each of its files once and works from the bytes that it holds. For every test of a program that reads files.

    through_pipes(command, files)      what it prints where each name is a pipe that gives its bytes once; None where it waits for more
    swapped(command, files, others)    what it prints where each name stands for another file as soon as the first is open
    touched(command, files)            for each name what happens to the file in turn: "opened", "read", "closed"

A pipe gives each byte once. A program that opens a name again, or reads it again, waits for ever in the first, works from other bytes in
the second, and is seen to open twice in the third, where the files are plain ones. All three ask the kernel only, so they hold for a
program that is emulated too.
"""

import ctypes
import os
import signal
import struct
import subprocess
import tempfile
import threading

PATIENCE = 10  # seconds; a program of ours ends in a fraction of one

EVENTS = {0x20: "opened", 0x1: "read", 0x2: "written", 0x8: "closed", 0x10: "closed"}  # of inotify(7)


def output(command, room, feeders=()):
    """What the command prints in the folder; None where it does not come to an end. The feeders run beside it."""
    for feeder in feeders:
        feeder.start()
    running = subprocess.Popen(command, cwd=room, stdin=subprocess.DEVNULL, stdout=subprocess.PIPE, stderr=subprocess.PIPE, start_new_session=True)
    try:
        return running.communicate(timeout=PATIENCE)[0]
    except subprocess.TimeoutExpired:
        os.killpg(running.pid, signal.SIGKILL)
        running.communicate()
        return None


def piped(command, files, opened):
    """The output where each name is a pipe, once fed; opened(room, name) is called when the program has opened it."""
    with tempfile.TemporaryDirectory() as room:
        def feed(name):
            with open(os.path.join(room, name), "wb", buffering=0) as pipe:
                opened(room, name)
                try:
                    for at in range(0, len(files[name]), 4096):
                        pipe.write(files[name][at:at + 4096])
                except BrokenPipeError:
                    pass  # the program has read what it wants

        for name in files:
            os.mkfifo(os.path.join(room, name))
        feeders = [threading.Thread(target=feed, args=(name,), daemon=True) for name in files]
        printed = output(command, room, feeders)
        for name in files:  # lets go a feeder whose pipe was never opened
            os.close(os.open(os.path.join(room, name), os.O_RDONLY | os.O_NONBLOCK))
        for feeder in feeders:
            feeder.join(PATIENCE)
        return printed


def through_pipes(command, files):
    return piped(command, files, lambda room, name: None)


def swapped(command, files, others):
    with tempfile.TemporaryDirectory() as beside:
        def swap(room, name):
            with open(os.path.join(beside, name), "wb") as f:
                f.write(others[name])
            os.rename(os.path.join(beside, name), os.path.join(room, name))

        return piped(command, files, swap)


def touched(command, files):
    """Events of one kind that follow each other at once count as one, as inotify counts them."""
    libc = ctypes.CDLL(None, use_errno=True)
    with tempfile.TemporaryDirectory() as room:
        for name, data in files.items():
            with open(os.path.join(room, name), "wb") as f:
                f.write(data)
        watch = libc.inotify_init1(os.O_NONBLOCK)
        if watch < 0 or libc.inotify_add_watch(watch, room.encode(), sum(EVENTS)) < 0:
            raise OSError(ctypes.get_errno(), "inotify cannot watch a folder")
        output(command, room)
        seen = {name: [] for name in files}
        try:
            while True:
                events = os.read(watch, 65_536)
                while events:
                    _, mask, _, length = struct.unpack("iIII", events[:16])
                    name, events = events[16:16 + length].rstrip(b"\0").decode(), events[16 + length:]
                    what = EVENTS.get(mask & sum(EVENTS))
                    if name in seen and what and seen[name][-1:] != [what]:
                        seen[name].append(what)
        except BlockingIOError:
            return seen
        finally:
            os.close(watch)
