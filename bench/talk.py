"""Processes that answer lines by lines: how long that takes, the processor's time in it, and the most memory that they
had."""

import contextlib
import os
import re
import resource
import subprocess
import threading
import time

# How often the memory of a process that nobody talks to is looked up, in seconds.
BETWEEN = 0.005
# How much of the machine's free memory a measured process leaves to others, in bytes.
SPARED = 2 << 30


def peak(pid):
    """The most memory that a process had so far, in MiB; 0 where it is gone."""
    with contextlib.suppress(OSError):
        with open(f"/proc/{pid}/status") as status:
            found = re.search(r"VmHWM:\s*(\d+) kB", status.read())
            return int(found[1]) / 1024 if found else 0
    return 0


def processor_time(pid):
    """The seconds of a processor that a running process has had, its own work and the system's for it."""
    return time.clock_gettime((~pid << 3) | 2)


def free_memory():
    """The bytes that the machine can give."""
    with open("/proc/meminfo") as lines:
        return 1024 * int(re.search(r"MemAvailable:\s*(\d+) kB", lines.read())[1])


def spare_others():
    """Has this process be refused memory before the machine has none for others."""
    most = max(free_memory() - SPARED, 1 << 30)
    resource.setrlimit(resource.RLIMIT_AS, (most, most))


class Ended(SystemExit):
    """A process ended before it had done what it was asked for."""


class Talk:
    """A process that is asked by lines and answers each by a line; `began` is when it was started."""

    def __init__(self, words):
        how = {"stdin": subprocess.PIPE, "stdout": subprocess.PIPE, "preexec_fn": spare_others}
        self.began = time.perf_counter()
        self.process = subprocess.Popen(words, **how)

    def ask(self, lines):
        """The replies to the lines, the seconds until the last of them came, and those of a processor in it."""
        text = "".join(it + "\n" for it in lines).encode()
        sender = threading.Thread(target=self._send, args=(text,))
        before, began = processor_time(self.process.pid), time.perf_counter()
        sender.start()
        replies = [self.process.stdout.readline() for _ in lines]
        seconds = time.perf_counter() - began
        sender.join()
        if not replies[-1]:
            raise Ended(f"{self.process.args} ended with status {self.process.wait()}")
        return replies, seconds, processor_time(self.process.pid) - before

    def _send(self, text):
        with contextlib.suppress(BrokenPipeError):
            self.process.stdin.write(text)
            self.process.stdin.flush()

    def end(self):
        """Ends the process, and answers the most memory that it had, in MiB."""
        most = peak(self.process.pid)
        self.process.stdin.close()
        self.process.stdout.read()
        if self.process.wait() != 0:
            raise SystemExit(f"{self.process.args} ended with status {self.process.returncode}")
        return most


def watch(pid, done, peaks):
    """Notes the memory of a process again and again."""
    while not done.is_set():
        peaks.append(peak(pid))
        done.wait(BETWEEN)


def run(words):
    """What a process prints, the seconds that it takes, those of a processor, and its most memory, in MiB."""
    done, peaks = threading.Event(), []
    began = time.perf_counter()
    process = subprocess.Popen(words, stdout=subprocess.PIPE, preexec_fn=spare_others)
    watcher = threading.Thread(target=watch, args=(process.pid, done, peaks))
    watcher.start()
    printed = process.stdout.read().decode()
    _, status, used = os.wait4(process.pid, 0)
    seconds = time.perf_counter() - began
    process.returncode = os.waitstatus_to_exitcode(status)
    done.set()
    watcher.join()
    return printed, seconds, used.ru_utime + used.ru_stime, max(peaks, default=0)
