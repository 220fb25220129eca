"""Changes bytes of code, handlers and stack maps in the examples' classes. It has nothing to run; ./run calls `write`."""
import glob
import random
import struct


def half(spelled, at):
    return struct.unpack(">H", spelled[at : at + 2])[0]


def word(spelled, at):
    return struct.unpack(">I", spelled[at : at + 4])[0]


def parts_of(spelled):
    """The class's name, and where code, handlers and stack maps stand."""
    texts, classes, at, index = {}, {}, 10, 1
    while index < half(spelled, 8):
        tag = spelled[at]
        if tag == 1:
            length = half(spelled, at + 1)
            texts[index] = spelled[at + 3 : at + 3 + length]
            at += 3 + length
        elif tag in (5, 6):
            at, index = at + 9, index + 1
        elif tag in (7, 8, 16):
            classes[index] = half(spelled, at + 1)
            at += 3
        else:
            at += 4 if tag == 15 else 5
        index += 1
    name = texts[classes[half(spelled, at + 2)]].decode().replace("/", ".")
    at += 8 + 2 * half(spelled, at + 6)
    parts = []
    for is_method in (False, True):
        count, at = half(spelled, at), at + 2
        for _ in range(count):
            attributes, at = half(spelled, at + 6), at + 8
            for _ in range(attributes):
                if is_method and texts[half(spelled, at)] == b"Code":
                    parts += parts_of_code(spelled, at + 6, texts)
                at += 6 + word(spelled, at + 2)
    return name, parts


def parts_of_code(spelled, at, texts):
    end = at + 8 + word(spelled, at + 4)
    parts = [(at + 8, end)]
    handlers = end + 2 + 8 * half(spelled, end)
    if handlers > end + 2:
        parts.append((end + 2, handlers))
    count, at = half(spelled, handlers), handlers + 2
    for _ in range(count):
        if texts[half(spelled, at)] == b"StackMapTable":
            parts.append((at + 8, at + 6 + word(spelled, at + 2)))
        at += 6 + word(spelled, at + 2)
    return parts


def damaged(spelled, parts, draw=random):
    changed = bytearray(spelled)
    for _ in range(draw.choice((1, 1, 1, 2))):
        start, end = draw.choice(parts)
        at = draw.randrange(start, end)
        changed[at] = draw.choice(
            (draw.randrange(256), (changed[at] + draw.choice((1, 2, 254, 255))) % 256, changed[draw.randrange(start, end)])
        )
    return bytes(changed)


def with_version(spelled, major):
    return spelled[:4] + struct.pack(">HH", 0, major) + spelled[8:]


def class_files(examples):
    """The path, the bytes, the class's name and the parts that can be damaged of each class of the examples that is accepted and has any."""
    found = []
    for path in sorted(glob.glob(f"{examples}/*/*.class")):
        if "/host/" in path or "/unsupported/" in path or path.endswith("/Audited.class"):
            continue
        with open(path, "rb") as file:
            spelled = file.read()
        name, parts = parts_of(spelled)
        if parts:
            found.append((path, spelled, name, parts))
    return found


def write(examples, folder, count, seed, major):
    """Writes each whole file and so many damaged ones as files of that major version, and answers of each its path, its class's name and the
    file that it was."""
    random.seed(seed)
    files = class_files(examples)
    written = []
    for number in range(len(files) + count):
        is_whole = number < len(files)
        path, spelled, name, parts = files[number] if is_whole else random.choice(files)
        made = f"{folder}/{number}.class"
        with open(made, "wb") as file:
            file.write(with_version(spelled if is_whole else damaged(spelled, parts), major))
        written.append((made, name, path))
    return written
