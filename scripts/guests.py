"""Programs in the host and on the JDK: how they are compiled and placed, and what each of the two says of them.

They are compiled beside a class host/Io that reads standard input and writes standard output, as the host's own does with a guest's input
and output.
"""
import os
import re
import struct
import subprocess
import sys

import measured

EXAMPLES = os.path.join(measured.ROOT, "examples", "java")
IO = """package host;
import java.io.BufferedOutputStream;
import java.io.FileDescriptor;
import java.io.FileOutputStream;
import java.io.IOException;
public final class Io extends Thread {
    private static final BufferedOutputStream OUT = new BufferedOutputStream(new FileOutputStream(FileDescriptor.out));
    static { Runtime.getRuntime().addShutdownHook(new Io()); }
    @Override public void run() { try { OUT.flush(); } catch (IOException e) { } }
    public static int read() { try { return System.in.read(); } catch (IOException e) { return -1; } }
    public static void write(int b) { try { OUT.write(b); } catch (IOException e) { } }
}
"""


def write(path, text):
    os.makedirs(os.path.dirname(path), exist_ok=True)
    with open(path, "w", encoding="utf-8") as file:
        file.write(text)


def compile_sources(sources, folder, path=None):
    """Has javac compile sources of Java 8 into a folder, beside the classes below a path."""
    beside = ["-cp", path] if path else []
    done = subprocess.run(["javac", "--release", "8", "-nowarn", *beside, "-d", folder, *sources], stderr=subprocess.PIPE, text=True)
    if done.returncode:
        sys.exit(done.stderr[:2000])


def compiled_io(folder):
    """A folder below this one with the class host/Io."""
    write(os.path.join(folder, "io-source", "Io.java"), IO)
    compile_sources([os.path.join(folder, "io-source", "Io.java")], os.path.join(folder, "io"))
    return os.path.join(folder, "io")


def example_folders():
    """The examples that a host runs, by their names."""
    names = sorted(it for it in os.listdir(EXAMPLES) if os.path.exists(os.path.join(EXAMPLES, it, "main")) and it != "unsupported")
    return {name: os.path.join(EXAMPLES, name) for name in names}


def main_of(folder):
    return measured.text_of(os.path.join(folder, "main")).strip()


def input_of(folder):
    """The path of what the program of a folder reads."""
    path = os.path.join(folder, "input")
    return path if os.path.exists(path) else os.devnull


def class_name(file):
    """The name of the class of a class file's bytes (JVMS 4.1)."""
    texts, classes, at, index = {}, {}, 10, 1
    while index < struct.unpack(">H", file[8:10])[0]:
        tag, number = file[at], struct.unpack(">H", file[at + 1 : at + 3])[0]
        if tag == 1:
            texts[index] = file[at + 3 : at + 3 + number]
        elif tag == 7:
            classes[index] = number
        at += 3 + number if tag == 1 else 3 if tag in (7, 8, 16) else 4 if tag == 15 else 9 if tag in (5, 6) else 5
        index += 2 if tag in (5, 6) else 1
    return texts[classes[struct.unpack(">H", file[at + 2 : at + 4])[0]]].decode()


def placed(folder, to):
    """Copies the class files of a folder to where java looks for them below another one."""
    for name in sorted(it for it in os.listdir(folder) if it.endswith(".class")):
        with open(os.path.join(folder, name), "rb") as file:
            spelled = file.read()
        path = os.path.join(to, class_name(spelled) + ".class")
        os.makedirs(os.path.dirname(path), exist_ok=True)
        with open(path, "wb") as file:
            file.write(spelled)
    return to


def bytes_shown(text):
    """The bytes of an output as a report shows it."""
    return re.sub(rb"\\x(..)", lambda found: bytes([int(found[1], 16)]), text)


def shown(report):
    """What a guest wrote, and how it ended, as its report says."""
    output = re.search(rb"(?m)^  output \d+:(?: (.*))?$", report)
    end = re.search(rb"(?m)^  end (.*)$", report)
    return (bytes_shown(output[1] or b""), end[1].decode()) if output and end else (None, report.decode(errors="replace"))


def shown_by_java(output, errors):
    """What a program wrote, and how it ended, by what java wrote on standard error."""
    thrown = re.search(rb'Exception in thread "main" ([\w.$]+)', errors)
    return output, "Threw " + thrown[1].decode().replace(".", "/") if thrown else "Returned"
