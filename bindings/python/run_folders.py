"""Runs folders as guests of one host, and prints what `jvhost run FOLDER...` prints. Use: run_folders.py FOLDER..."""
import os
import sys

import jvhost


def read(folder, name):
    path = os.path.join(folder, name)
    if not os.path.exists(path):
        return b""
    with open(path, "rb") as file:
        return file.read()


def shown(data):
    """Bytes as `jvhost` prints them."""
    return "".join(chr(it) if 32 <= it <= 126 and it != 92 else "\\x%02x" % it for it in data)


def report(number, folder, names, seen):
    print("guest %d %s" % (number, folder))
    for name, verdict in zip(names, seen.verdicts):
        print("  %s: %s" % (name, verdict))
    print("  steps %d" % seen.steps)
    print("  throws %d%s" % (seen.throws, " last " + shown(seen.last) if seen.last else ""))
    print("  output %d:%s" % (len(seen.output), " " + shown(seen.output) if seen.output else ""))
    ends = {jvhost.End.RUNNING: "Running", jvhost.End.RETURNED: "Returned", jvhost.End.NO_MAIN: "NoMain"}
    print("  end " + ends.get(seen.end, "Threw %s" % shown(seen.end_class or b"")))


def main():
    with jvhost.Host() as host:
        guests = []
        for folder in sys.argv[1:]:
            names = sorted(it for it in os.listdir(folder) if it.endswith(".class"))
            main_class = read(folder, "main").rstrip(b"\r\n")
            guests.append((host.admit([read(folder, it) for it in names], main_class, read(folder, "input")), folder, names))
        host.run(1_000, 10_000)
        for guest, folder, names in guests:
            report(guest + 1, folder, names, host.observe(guest))


if __name__ == "__main__":
    main()
