"""Which loads and stores go to a place that is a multiple of what they take, as the compiler says: a processor that has no others
takes one instruction for each of these, and several for another. wasm2c does not say it, so wabt's wasm2wat is asked, which has the
same instructions in the same order."""
import re
from typing import List

from .static_library import NotBuilt

# Octets that an instruction takes, by the bits in its name.
WIDTHS = {"i32_load16_s": 2, "i32_load16_u": 2, "i64_load16_s": 2, "i64_load16_u": 2, "i32_store16": 2, "i64_store16": 2, "i32_load": 4,
          "i32_store": 4, "i64_load32_s": 4, "i64_load32_u": 4, "i64_store32": 4, "i64_load": 8, "i64_store": 8}
ACCESS = r"\b(i\d\d_(?:load|store)\w*)\(&?instance->w2c_memory, \(u64\)\(w2c_i\d+\)(?: \+ (\d+)u?)?"


def named(wat: str) -> List["re.Match[str]"]:
    """The instructions of a module's text: a name, how far ahead the access goes, and an alignment if it is less than the width."""
    return list(re.finditer(r"^ +(i\d\d)\.((?:load|store)\w*)(?: offset=(\d+))?(?: align=(\d+))?\)*$", wat, re.M))


def marked(text: str, wat: str) -> str:
    """wasm2c's text, in which the name of such an instruction ends with the number of which the place is a multiple."""
    of = iter(named(wat))

    def mark(found: "re.Match[str]") -> str:
        it = next(of, None)
        if it is None or f"{it[1]}_{it[2]}" != found[1] or int(it[3] or 0) != int(found[2] or 0):
            raise NotBuilt(f"wasm2wat has other instructions than wasm2c: {found[0]}")
        is_one = found[1] in WIDTHS and not it[4]
        return found[0].replace(found[1], f"{found[1]}_{WIDTHS[found[1]]}", 1) if is_one else found[0]

    text = re.sub(ACCESS, mark, text)
    if next(of, None):
        raise NotBuilt("wasm2wat has more instructions than wasm2c")
    return text
