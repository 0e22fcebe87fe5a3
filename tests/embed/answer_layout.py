"""Compares how the Python module reads `struct gs1_answer` with the lines of answer_layout.c on standard input. The last line is the counts."""
from __future__ import annotations

import ctypes
import json
import sys

import noriladle


def element_as_data(element: noriladle.Element) -> dict[str, str]:
    told = {name: getattr(element, name) for name in ("date", "until", "time")}
    return {"ai": element.ai, "value": element.value, **{name: it.isoformat() for name, it in told.items() if it is not None}}


def answer_as_data(struct: bytes) -> dict[str, object]:
    """What the module reads in the bytes of a struct, as if a call had written them."""
    try:
        answer = noriladle._read(lambda raw: ctypes.memmove(raw, struct, ctypes.sizeof(raw)))
    except noriladle.Refusal as refusal:
        return {"refused": str(refusal)}
    first, last = (element_as_data(answer.elements[at]) for at in (0, -1))
    return {"identifier": answer.identifier, "symbol": answer.symbol, "count": len(answer.elements), "first": first, "last": last}


def main() -> bool:
    compared, wrong, symbols = 0, 0, []
    for line in sys.stdin:
        asked, said = line.rstrip("\n").split("\t")
        if asked.isdecimal() and len(asked) < 3:
            symbols.append(None if said == "UNKNOWN" else said.lower())
            continue
        struct = bytes.fromhex(asked)
        pairs = [(json.loads(said), answer_as_data(struct)), (len(struct), ctypes.sizeof(noriladle._RawAnswer))]
        compared += len(pairs)
        for wanted, got in pairs:
            if wanted != got:
                wrong += 1
                print(f"wrong: {got}, not {wanted}", file=sys.stderr)
    if symbols != list(noriladle._SYMBOLS):
        wrong += 1
        print(f"wrong: {noriladle._SYMBOLS}, not {symbols}", file=sys.stderr)
    print(f"{compared + 1} parts of structs read by Python, {wrong} wrong")
    return wrong != 0 or compared != 8


sys.exit(main())
