"""What the yardsticks share: numbers as Thrift writes them, and the time and the memory of a program."""
import os
import subprocess
import time


def varint(number):
    out = bytearray()
    while number >= 128:
        out.append(128 | number & 127)
        number >>= 7
    out.append(number)
    return bytes(out)


def whole(number):
    """A number of at least 0, in zigzag."""
    return varint(2 * number)


def write(folder, data):
    """A file of these bytes in the folder."""
    path = f"{folder}/data"
    with open(path, "wb") as file:
        file.write(data)
    return path


def least(command):
    """The least time of five runs of a program, in seconds."""
    times = []
    for _ in range(5):
        start = time.perf_counter()
        subprocess.run(command, check=True, stdout=subprocess.DEVNULL)
        times.append(time.perf_counter() - start)
    return min(times)


def peak(command):
    """The most memory that a run of a program held, in bytes."""
    with subprocess.Popen(command, stdout=subprocess.DEVNULL) as program:
        _, status, used = os.wait4(program.pid, 0)
        program.returncode = os.waitstatus_to_exitcode(status)
    if program.returncode:
        raise subprocess.CalledProcessError(program.returncode, command)
    return 1024 * used.ru_maxrss
