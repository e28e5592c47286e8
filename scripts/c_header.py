"""The structs, functions and statuses of c/berylwool.h by ctypes, as the header declares them.

A pointer to bytes is a c_void_p, which takes bytes objects too. A handle of any kind is a Handle.
"""
import ctypes
import pathlib
import re

TEXT = (pathlib.Path(__file__).resolve().parent.parent / "c" / "berylwool.h").read_text(encoding="utf-8")
STRUCT = re.compile(r"^typedef struct (\w+) \{\n(.*?)^\} \w+;", re.M | re.S)
FUNCTION = re.compile(r"^(?:BW_USE )?(?!static)(\w+|const char) (\*?)(bw_\w+)\(([^;{]*?)\)(?: BW_NONNULL\([\d, ]+\))?;", re.M)
STATUS = re.compile(r"^    BW_(\w+) = (\d+)", re.M)

size, u32, u64, hash_ = ctypes.c_size_t, ctypes.c_uint32, ctypes.c_uint64, ctypes.c_uint8 * 32
types = {"uint8_t": ctypes.c_uint8, "uint32_t": u32, "uint64_t": u64, "size_t": size, "bw_status": u32, "void": None}


class Handle(ctypes.Structure):
    _fields_ = [("at", ctypes.c_void_p)]


def struct(name, body):
    if "void *at;" in body:
        return Handle
    fields = []
    for kind, field, count in re.findall(r"^    (\w+) (\w+)(?:\[(\d+)\])?;", body, re.M):
        fields.append((field, types[kind] * int(count) if count else types[kind]))
    return type(name, (ctypes.Structure,), {"_fields_": fields})


def parameter(text):
    """The ctypes type of a parameter as it is written."""
    kind, star, array = re.fullmatch(r"(?:const )?(\w+) (\*?)\w+(\[.*\])?", text.strip()).groups()
    if kind == "void":
        return ctypes.POINTER(Handle)
    if kind == "uint8_t":
        return ctypes.c_void_p
    return ctypes.POINTER(types[kind]) if star or array else types[kind]


for name, body in STRUCT.findall(TEXT):
    types[name] = struct(name, body)
Mode, Node, Slice, Chunks = (types[f"bw_{it}"] for it in ("mode", "node", "slice", "chunks"))
STATUSES = {name: int(number) for name, number in STATUS.findall(TEXT)}
# The result of each function, and then its parameters.
FUNCTIONS = {
    name: (ctypes.c_char_p if star else types[result], *map(parameter, words.split(",") if words != "void" else ()))
    for result, star, name, words in FUNCTION.findall(TEXT)
}


def library(path):
    loaded = ctypes.CDLL(str(path))
    for name, (result, *parameters) in FUNCTIONS.items():
        function = getattr(loaded, name)
        function.restype, function.argtypes = result, parameters
    return loaded
