"""What the module repeats is held to the C header and to the library's sources."""
import ctypes
import re
import unittest
from pathlib import Path

import strided
from strided import Verdict, _library
from strided._refusal import SENTENCES

ROOT = Path(__file__).resolve().parents[3]
HEADER = (ROOT / "bindings/c/strided.h").read_text(encoding="utf-8")
CODE = re.sub(r"/\*.*?\*/", " ", HEADER, flags=re.S)
STRUCTS = {
    "strided_axis": _library.CAxis,
    "strided_layout": _library.CLayout,
    "strided_values": _library.CValues,
    "strided_found": _library.CFound,
}
KINDS = {
    **STRUCTS,
    "int32_t": ctypes.c_int32,
    "int64_t": ctypes.c_int64,
    "size_t": ctypes.c_size_t,
    "uint8_t": ctypes.c_uint8,
    "uint64_t": ctypes.c_uint64,
}


def kind_of(written):
    """The ctypes type of a declaration in C, without its name."""
    form = r"(?:const )?(\w+) ?(\*?) ?(\w+)(?:\[(\w+)\])?"
    words = re.fullmatch(form, " ".join(written.split()))
    kind = KINDS[words[1]]
    if words[4]:
        kind *= number_of(words[4])
    return words[3], ctypes.POINTER(kind) if words[2] else kind


def number_of(name):
    """The number that the header gives a name."""
    return int(re.search(rf"\b{name} = (\d+)", CODE)[1])


class Border(unittest.TestCase):
    def test_calls_are_those_of_the_header(self):
        declared = {}
        for found in re.finditer(r"^(\w+) (strided_\w+)\(([^)]*)\);", CODE, re.M):
            parameters = [kind_of(one)[1] for one in found[3].split(",")]
            declared[found[2]] = KINDS[found[1]], parameters
        self.assertEqual(len(declared), 16)
        self.assertEqual(_library.CALLS, declared)

    def test_structs_are_those_of_the_header(self):
        declared = {
            name: [kind_of(field) for field in body.split(";") if field.strip()]
            for body, name in re.findall(r"typedef struct \w*\s*\{([^{}]*)\} (\w+);", CODE)
        }
        self.assertEqual(declared, {name: struct._fields_ for name, struct in STRUCTS.items()})

    def test_numbers_are_those_of_the_header(self):
        self.assertEqual(_library.MOST_AXES, number_of("STRIDED_AXES"))
        self.assertEqual(_library.LONGEST_RECORD, number_of("STRIDED_RECORD"))
        self.assertEqual(_library.SHORT_SCRATCH, number_of("STRIDED_SHORT_SCRATCH"))
        self.assertEqual(_library.SHORT_OUTPUT, number_of("STRIDED_SHORT_OUTPUT"))
        for verdict in Verdict:
            self.assertEqual(verdict.value, number_of(f"STRIDED_{verdict.name}"))

    def test_no_pointer_is_null(self):
        for kind in (ctypes.c_uint64, ctypes.c_int64, ctypes.c_size_t):
            self.assertTrue(ctypes.addressof(_library.slice_of(kind, [])[0]))
        self.assertTrue(ctypes.addressof((ctypes.c_uint8 * 0).from_buffer_copy(b"")))

    def test_sentences_are_those_of_the_library(self):
        source = (ROOT / "crates/view/src/layout.rt").read_text(encoding="utf-8")
        form = r"/// (\d+): .*\n(?: *///.*\n)* *#\[error\(\"(.*)\"\)\]\n *\w+(?:\((.*)\))?,"
        rows = re.findall(form, source)
        self.assertEqual(SENTENCES, {int(number): sentence for number, sentence, _ in rows})
        for number, sentence, values in rows:
            self.assertEqual(sentence.count("{"), len(values.split(",")) if values else 0, number)

    def test_version_is_that_of_the_header(self):
        version = re.search(r'#define STRIDED_VERSION "(.*)"', HEADER)
        self.assertEqual(strided.__version__, version[1])


if __name__ == "__main__":
    unittest.main()
