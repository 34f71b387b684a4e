"""Runs one program, and prints its seconds, most memory in kB, processor seconds and status.

    bench/alone.py INPUT OUTPUT PROGRAM [WORD..]

It is a process of its own, and a small one: the most memory that the system notes of a program is
at least what the process had that started it.
"""
import os
import sys
import time


def main() -> None:
    given, out, *words = sys.argv[1:]
    files = [
        (os.POSIX_SPAWN_OPEN, 0, given, os.O_RDONLY, 0),
        (os.POSIX_SPAWN_OPEN, 1, out, os.O_WRONLY | os.O_CREAT | os.O_TRUNC, 0o644),
    ]
    begun = time.monotonic()
    child = os.posix_spawnp(words[0], words, os.environ, file_actions=files)
    _, state, used = os.wait4(child, 0)
    seconds, status = time.monotonic() - begun, os.waitstatus_to_exitcode(state)
    print(seconds, used.ru_maxrss, used.ru_utime + used.ru_stime, status)


if __name__ == "__main__":
    main()
