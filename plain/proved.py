"""The proved calls, from Python: the archives of the crates `probe` and `gateway` as shared objects. Wants gcc, and what `rt lib`
writes in their folders: crates/probe/out/libprobe.a and, for the sweep of a whole image, crates/gateway/out/libgateway.a."""
import array
import ctypes
import functools
import pathlib
import subprocess
import sys
import tempfile

CRATES = pathlib.Path(__file__).resolve().parent.parent / "crates"
GUARD = 4  # numbers before and behind what is lent
AROUND = 0xA5  # what they are
BYTES, ENTRIES, HITS, NUMBERS = "B", "H", "I", "Q"


class Told(ctypes.Structure):
    _fields_ = [("kind", ctypes.c_size_t), ("numbers", ctypes.c_size_t * 4)]


class Swept(ctypes.Structure):
    _fields_ = [(name, ctypes.c_uint64) for name in ("refusal", "value", "hits", "fetched", "spared")]


class Lent:
    """A slice to lend: bytes, entries of 16 bits, hits of 32 or numbers of 64 bits, with others around it that no call may touch."""

    def __init__(self, code, content):
        self.code = code
        self.whole = self.around(content)

    def around(self, content):
        guard = array.array(self.code, [AROUND] * GUARD)
        return guard + array.array(self.code, content) + guard

    def slice(self):
        address, count = self.whole.buffer_info()
        return ctypes.c_void_p(address + GUARD * self.whole.itemsize), ctypes.c_size_t(count - 2 * GUARD)

    def content(self):
        return self.whole[GUARD:-GUARD].tolist()


class Byte(int):
    """A byte to pass, where other numbers have 64 bits."""


@functools.cache
def load(crate):
    archive = CRATES / crate / "out" / f"lib{crate}.a"
    if not archive.is_file():
        sys.exit(f"{archive} is not there; `rt lib` in crates/{crate} makes it")
    with tempfile.TemporaryDirectory() as folder:
        shared = pathlib.Path(folder, f"lib{crate}.so")
        subprocess.run(["gcc", "-shared", "-o", shared, "-Wl,--whole-archive", archive, "-Wl,--no-whole-archive"], check=True)
        return ctypes.CDLL(str(shared))


probe = load("probe")


def passed(given):
    """What is given, as C takes it: a slice as its start and its length."""
    out = []
    for x in given:
        if isinstance(x, Lent):
            out += x.slice()
        else:
            out.append((ctypes.c_uint8 if isinstance(x, Byte) else ctypes.c_size_t)(x))
    return out


def call(name, *given):
    """What the call tells: its kind and its numbers; of `probe_body_at` its one number."""
    function = getattr(probe, name)
    function.restype = ctypes.c_size_t if name == "probe_body_at" else Told
    told = function(*passed(given))
    return told if name == "probe_body_at" else (told.kind, *told.numbers)


def sweep(*given):
    """What the gateway's sweep of a whole image tells: a refusal (0: none) and its value, the numbers of hits, of bytes fetched and of
    bytes spared."""
    function = load("gateway").lonnatchi_sweep
    function.restype = Swept
    told = function(*passed(given))
    return (told.refusal, told.value, told.hits, told.fetched, told.spared)
