"""The program of the page, crates/lapd_page, as a module of WebAssembly."""
import tempfile
from typing import Optional

from .program import Fault
from .static_library import built, module
from .wasm import need, wasm

NAME, EXPORTS = "lapd_page", ("lapd_page_play", "module_take")
STACK = 1 << 18  # octets: a script is played with pages of 4,096 octets on it


def module_of(path: Optional[str], over_gate: bool) -> bytes:
    """The program as a module: the one at a path, or the proved one."""
    if path:
        with open(path, "rb") as it:
            octets = it.read()
        if not octets.startswith(b"\0asm"):
            raise Fault(f"{path}: no module of WebAssembly")
        return octets
    need("wasm-opt")
    built(NAME, over_gate=over_gate, with_module=True)
    with tempfile.TemporaryDirectory(prefix="page-") as folder:
        with open(wasm(module(NAME), EXPORTS, folder, STACK), "rb") as it:
            return it.read()
