"""Times a run of the built program over a hive, for the scripts beside it."""
import os
import resource
import subprocess
import tempfile


def used():
    """The processor seconds of the programs that were run so far."""
    so_far = resource.getrusage(resource.RUSAGE_CHILDREN)
    return so_far.ru_utime + so_far.ru_stime


def seconds(program, hive, script):
    """The processor seconds that the program takes for the script on this hive, the lines that it prints, and its exit status."""
    with tempfile.TemporaryDirectory() as room:
        for name, data in (("hive", hive), ("script", script)):
            with open(os.path.join(room, name), "wb") as f:
                f.write(data)
        words = [os.path.abspath(program), "run", "--hive", "hive", "--script", "script"]
        before = used()
        done = subprocess.run(words, cwd=room, capture_output=True, timeout=3600)
        return used() - before, done.stdout.decode().split("\n"), done.returncode
