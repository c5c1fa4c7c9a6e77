"""Windows NT registry hives and starts, by libntboot.

    from ntboot import Hive

    with Hive("SYSTEM", log="SYSTEM.LOG") as hive:
        for value in hive.key(r"CurrentControlSet\\Services\\Disk").values():
            print(value.name, value.type, value.value)
        print(hive.report("boot\\ngo\\n", boot_ini="boot.ini"))

The library is libntboot.so: the one that the variable NTBOOT_LIBRARY names, else beside this file or in the folder above. `./build` makes it.
"""
import ctypes
import json
import os
import struct

HERE = os.path.dirname(os.path.abspath(__file__))
# The most that is tried as the room of an answer at first, in bytes; a longer one is asked for again.
FIRST_ROOM = 1 << 16


class NtbootError(Exception):
    """Why a call has no answer. `text` is the one line that the program prints."""

    def __init__(self, text):
        super().__init__(text)
        self.text = text


class BadUsage(NtbootError):
    """The words cannot be parsed."""


class NoFile(NtbootError):
    """A file that the words name is not given."""


class LineFault(NtbootError):
    """A text cannot be parsed: `line`, from 1, and `kind`."""

    def __init__(self, text):
        super().__init__(text)
        *_, line, self.kind = text.split()
        self.line = int(line)


class ScriptFault(LineFault):
    """The script cannot be parsed."""


class RegFault(LineFault):
    """The registry text cannot be parsed."""


class BootIniFault(NtbootError):
    """boot.ini is too long, or has too many entries."""


class HiveFault(NtbootError):
    """The hive has a fault: its `kind`, and `at`, an offset in bytes: in the file where the base block or the log has the fault, else in the bins
    data, which begin at byte 4096 of the file."""

    def __init__(self, text):
        super().__init__(text)
        _, _, self.kind, _, at = text.split()
        self.at = int(at)


class NoMemory(NtbootError):
    """There was no memory."""


class NoKey(NtbootError, KeyError):
    """The hive has no such key."""


class NoSet(NtbootError, KeyError):
    """The hive has no control set of this number."""


class Refused(NtbootError):
    """A change is refused, and none is made: `word` says why, as `no-key`."""

    def __init__(self, text):
        super().__init__(text)
        self.word = text.split()[-1]


DONE, FOUND, NO_MEMORY = 0, 8, 9
ERRORS = {1: BadUsage, 2: NoFile, 3: ScriptFault, 4: BootIniFault, 5: HiveFault, NO_MEMORY: NoMemory, 10: RegFault}


class Given(ctypes.Structure):
    """The struct ntboot_given of ntboot.h."""

    _fields_ = [(name, ctypes.c_bool) for name in ("hive", "log", "boot_ini", "text")]


def load():
    """Returns the library."""
    named = os.environ.get("NTBOOT_LIBRARY")
    places = [named] if named else [os.path.join(at, "libntboot.so") for at in (HERE, os.path.dirname(HERE))]
    found = next((it for it in places if os.path.exists(it)), None)
    if found is None:
        raise OSError(f"there is no {' nor '.join(places)}: ./build makes libntboot.so, and NTBOOT_LIBRARY names it elsewhere")
    library = ctypes.CDLL(found)
    library.ntboot_call.restype = ctypes.c_uint8
    return library


class Answer:
    """What a command printed (`text`), its exit status, and the files that it saved, as bytes (None where it saved none)."""

    def __init__(self, status, said, hive, log):
        self.status, self.text, self.hive, self.log = status, said.decode("utf-8"), hive or None, log or None

    def lines(self):
        """Returns the objects of a report in JSON."""
        return [json.loads(line) for line in self.text.splitlines()]


LIBRARY = None


def command_line(words):
    """Returns the words, one a line. A line's last carriage return is no part of its word, so each has one."""
    try:
        line = "".join(f"{word}\r\n" for word in words).encode("utf-8")
    except UnicodeEncodeError:
        raise BadUsage("bad usage") from None
    if line.count(b"\n") > len(words):
        raise BadUsage("bad usage")
    return line


def call(words, hive=None, log=None, boot_ini=None, text=None):
    """Does what the words ask for on these files (bytes, or None for one that is absent), which they name `hive`, `log`, `boot.ini` and `text`. A word with a
    line feed, or with half of a surrogate pair, is bad usage."""
    global LIBRARY
    LIBRARY = LIBRARY or load()
    files = [hive, log, boot_ini, text]
    line = command_line(words)
    given = Given(*[it is not None for it in files])
    inputs = [it for one in (line, *files) for it in (one or b"", ctypes.c_size_t(len(one or b"")))]
    rooms = [FIRST_ROOM, len(hive or b"") + 65536 if "saved" in words else 0, FIRST_ROOM if "saved.log" in words else 0]
    while True:
        outs = [ctypes.create_string_buffer(max(room, 1)) for room in rooms]
        lengths = [ctypes.c_size_t() for _ in rooms]
        given_back = [it for out, room, length in zip(outs, rooms, lengths) for it in (out, ctypes.c_size_t(room), ctypes.byref(length))]
        status = LIBRARY.ntboot_call(*inputs[:2], ctypes.byref(given), *inputs[2:], *given_back)
        if all(length.value <= room for length, room in zip(lengths, rooms)):
            break
        rooms = [max(length.value, room) for length, room in zip(lengths, rooms)]
    said, saved, saved_log = [ctypes.string_at(out, length.value) for out, length in zip(outs, lengths)]
    answer = Answer(status, said, saved, saved_log)
    if status in ERRORS:
        raise ERRORS[status]("out of memory" if status == NO_MEMORY else answer.text.strip())
    return answer


def read(source):
    """Returns the bytes of a file by its path, or bytes as they are."""
    if source is None or isinstance(source, (bytes, bytearray, memoryview)):
        return source if source is None else bytes(source)
    with open(source, "rb") as file:
        return file.read()


class Value:
    """A value of a key: its `name`, its `type` (as REG_SZ), its `value` as Python has it, and its `data` as the bytes that the hive has."""

    def __init__(self, line):
        self.name, self.type, self.line = line["name"], line["type"], line

    @property
    def value(self):
        """An int of a number, a str of a text, a list of str of a list, else the bytes."""
        for form in ("number", "text", "list"):
            if form in self.line:
                return self.line[form]
        return self.data

    @property
    def data(self):
        """The data, byte for byte."""
        line = self.line
        if "number" in line:
            return struct.pack("<Q" if self.type == "REG_QWORD" else "<I", line["number"])
        if "text" in line:
            return utf16(line["text"]) + (b"\0\0" if line["ended"] else b"")
        if "list" in line:
            return b"".join(utf16(item) + b"\0\0" for item in line["list"]) + b"\0\0"
        return bytes.fromhex(line.get("hex", ""))

    def __repr__(self):
        return f"Value({self.name!r}, {self.type}, {self.value!r})"


def utf16(text):
    """Returns the units of a text; one that is half of a pair stands for itself."""
    return text.encode("utf-16-le", "surrogatepass")


class Key:
    """A key: its `path` from the root (a list of names), when it was `written` (UTC, as text), its `flags`, values and subkeys."""

    def __init__(self, hive, lines):
        self.hive, self.path, self.written, self.flags = hive, [], None, 0
        self.all_values, self.names = [], []
        for line in lines:
            self.take(line)

    def take(self, line):
        """Takes a line of the key's block."""
        word = line["line"]
        if word == "key":
            self.path = line["path"]
        elif word == "stamp":
            self.written = line["stamp"]
        elif word == "flags":
            self.flags = line["flags"]
        elif word == "value":
            self.all_values.append(Value(line))
        elif word == "subkey":
            self.names.append(line["name"])

    def values(self):
        """Returns the values, in the hive's order."""
        return self.all_values

    def value(self, name):
        """Returns the value of a name, compared without regard to the case of a to z, or None."""
        return next((it for it in self.all_values if folded(it.name) == folded(name)), None)

    def subkeys(self):
        """Returns the names of the subkeys, in the hive's order."""
        return self.names

    def key(self, name):
        """Returns a subkey by its name."""
        return self.hive.key("\\".join([*self.path, name]))

    def __repr__(self):
        path = "\\".join(self.path)
        return f"Key({path!r})"


def folded(name):
    """Returns a name with its letters a to z in upper case, as names are compared here."""
    return "".join(it.upper() if "a" <= it <= "z" else it for it in name)


class Hive:
    """A hive, from a path or bytes, with its log where it has one. A hive with a fault raises HiveFault."""

    def __init__(self, hive, log=None):
        self.hive, self.log = read(hive), read(log)
        self.root()

    def __enter__(self):
        return self

    def __exit__(self, *_):
        self.close()

    def close(self):
        """Lets go of the bytes."""
        self.hive = self.log = None

    def call(self, command, *words, text=None, boot_ini=None):
        """Does a command on this hive; its words may name the files `text` and `boot.ini`."""
        if self.hive is None:
            raise ValueError("the hive is closed")
        log = ["--log", "log"] if self.log is not None else []
        return call([command, "--hive", "hive", *log, *words], self.hive, self.log, boot_ini, text)

    def root(self):
        """Returns the root."""
        return self.key("")

    def key(self, path):
        """Returns the key at a path such as CurrentControlSet\\\\Services\\\\Disk."""
        lines = self.call("key", *([f"--key={path}"] if path else []), "--json").lines()
        if lines[0]["line"] == "refused":
            raise NoKey(path)
        return Key(self, lines)

    def services(self, number=None):
        """Returns the services and drivers of a control set as the objects that `services --json` prints; of the default set, where no number is given."""
        chosen = [] if number is None else ["--set", str(number)]
        lines = self.call("services", *chosen, "--json").lines()
        if lines[0]["line"] == "no-set":
            raise NoSet(f"no-set {lines[0]['number']}")
        return [line for line in lines if line["line"] == "entry"]

    def report(self, script, boot_ini=None, as_json=False):
        """Plays a script and returns the report of its starts as text, or as objects."""
        ini = ["--boot-ini", "boot.ini"] if boot_ini is not None else []
        form = ["--json"] if as_json else []
        answer = self.call("run", "--script", "text", *ini, *form, text=script.encode("utf-8"), boot_ini=read(boot_ini))
        return answer.lines() if as_json else answer.text

    def imported(self, text, *words):
        """Returns the hive with the changes of a registry text (UTF-16 bytes, or a str), and what was printed of them. This one stays as it is.
        `words` are more options of `import`: with "--current=default" the text's CurrentControlSet is the default set, and else a key of that name."""
        data = b"\xff\xfe" + utf16(text) if isinstance(text, str) else text
        answer = self.call("import", "--reg", "text", "--save-hive", "saved", *words, text=data)
        last = answer.text.splitlines()[-1]
        if last.startswith("import refused "):
            raise Refused(last)
        return Hive(answer.hive), answer.text
