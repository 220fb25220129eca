"""A test of jvhost.py. Use: test.py CHECKOUT"""
import os
import sys
import threading

import jvhost


def raises(code, call, *words):
    try:
        call(*words)
    except jvhost.Error as error:
        return error.code == code and str(error) != ""
    return False


def read(root, *path):
    with open(os.path.join(root, *path), "rb") as file:
        return file.read()


def main():
    root = sys.argv[1]
    hi = read(root, "examples", "hi", "Hi.class")
    assert jvhost.version() == "0.1.0"
    seen = jvhost.judge([hi], "Hi")
    assert (seen.steps, seen.output, seen.end) == (6, b"Hi", jvhost.End.RETURNED)
    assert jvhost.judge([hi], b"Hi", steps=3).end == jvhost.End.RUNNING
    assert [str(it) for it in jvhost.check([hi, b"", hi])] == ["Accepted", "Format", "Duplicate"]
    assert str(jvhost.Verdict(jvhost.Kind.VERIFY, 0, 3, 6)) == "Verify method 0 offset 3 rule 6"
    assert raises(jvhost.Code.NO_FILES, jvhost.check, [])
    assert raises(jvhost.Code.NO_FILES, jvhost.judge, [], "Hi")
    assert raises(jvhost.Code.BUDGET_OUT_OF_RANGE, jvhost.judge, [hi], "Hi", b"", 1, jvhost.Budget(cells=1))
    with jvhost.Host(seed=1) as host:
        assert raises(jvhost.Code.NO_GUEST, host.observe, 0)
        guest = host.admit([hi], "Hi", b"unread")
        host.feed(guest, b"more")
        assert host.turn(guest, 2) == 2 and host.run(1, 100) == 4
        seen = host.observe(guest)
        assert (seen.steps, seen.throws, seen.output, seen.end) == (6, 0, b"Hi", jvhost.End.RETURNED)
        assert seen.last is None and seen.end_class is None and seen.place is None and seen.verdicts[0].kind == jvhost.Kind.ACCEPTED
        assert host.output(guest, 1) == b"i" and host.output(guest, 9) == b""
    assert raises(jvhost.Code.NO_HOST, host.observe, 0)
    host.close()
    for files, fault in (([hi], "MAIN"), ([b""], "FORMAT"), ([read(root, "crates", "embed_host", "data", "Echo.class")], "MAIN")):
        try:
            jvhost.Host(library=files)
            raise AssertionError("a library of " + fault)
        except jvhost.LibraryError as error:
            assert (error.fault.name, error.file, error.code) == (fault, 0, jvhost.Code.NO_LIBRARY)
    folder = os.path.join(root, "library", "classes")
    library = {name: read(folder, name) for name in sorted(os.listdir(folder))}
    maze = read(root, "examples", "library", "maze", "Maze.class")
    with jvhost.Host(library=library.values()) as host:
        assert jvhost.check([maze])[0].kind == jvhost.Kind.VERIFY and host.check([maze])[0].kind == jvhost.Kind.ACCEPTED
        judged = host.judge([maze, b""], "Maze", read(root, "examples", "library", "maze", "input"))
        assert (judged.end, judged.verdicts, judged.last) == (jvhost.End.RETURNED, [], None) and judged.output != b""
        assert host.judge([maze], "Maze", steps=3).steps == 3
        assert raises(jvhost.Code.NO_FILES, host.check, []) and raises(jvhost.Code.NO_FILES, host.judge, [], "Maze")
        assert raises(jvhost.Code.NO_GUEST, host.observe, 0)
        sums = os.path.join(root, "examples", "library", "sums")
        host.admit([read(sums, "Sums.class")], "Sums", read(sums, "input"))
        host.run(1_000, 10_000)
        assert host.observe(0).end == jvhost.End.RETURNED and host.observe(0).output != b""
    assert raises(jvhost.Code.NO_HOST, host.check, [hi]) and raises(jvhost.Code.NO_HOST, host.judge, [hi], "Hi")
    with jvhost.Host(library=[it for name, it in library.items() if not name.startswith("java.util.AbstractMap")]) as host:
        for call, words in ((host.check, [[hi]]), (host.judge, [[hi], "Hi"]), (host.admit, [[hi], "Hi"])):
            assert raises(jvhost.Code.LIBRARY_BROKEN, call, *words)
    with jvhost.Host() as host:
        assert [str(it) for it in host.check([hi, b"", hi])] == ["Accepted", "Format", "Duplicate"]
        assert host.judge([hi], "Hi") == jvhost.judge([hi], "Hi")
    with jvhost.Host() as host:
        host.run(1_000, host.admit([hi], "Hi", b"", jvhost.Budget(output=1)) + 1)
        assert host.observe(0).place == jvhost.Place(b"Hi", b"main", b"([Ljava/lang/String;)V", 7)
    thrower = jvhost.Host()
    guest = thrower.admit([read(root, "crates", "embed_host", "data", "Echo.class"), b""], "None")
    assert thrower.observe(guest).end == jvhost.End.NO_MAIN
    thrower.close()
    threads = [threading.Thread(target=lambda: [jvhost.judge([hi], "Hi") for _ in range(20)]) for _ in range(2)]
    for it in threads:
        it.start()
    for it in threads:
        it.join()
    print("ok")


if __name__ == "__main__":
    main()
