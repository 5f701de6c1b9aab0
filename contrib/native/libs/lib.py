#!/usr/bin/env python3
"""Makes the stand-ins of the kit's crates that are its own sources in plain Rust: sqlite_items, and character classes."""
import os
import re

HERE = os.path.dirname(os.path.dirname(os.path.abspath(__file__)))
with open(f"{HERE}/gen.py", encoding="utf-8") as file:
    exec(compile(file.read().replace("\nmain()\n", "\n").replace("os.path.abspath(__file__)", f"'{HERE}/gen.py'"), "gen", "exec"))
KIT = "/opt/rattle/rattle"
for n in ["lib", "items", "boxed"]:
    t = with_prelude(plain_debug(convert(open(f"{KIT}/sqlite_items/src/{n}.rt").read())))
    if n == "lib":
        t = ROOT + t
    write(f"{HERE}/libs/sqlite_items/src/{n}.rs", t)
out = ROOT + "//! Properties of characters.\npub mod properties {\n"
for p in ["xid_start", "xid_continue", "id_start", "id_continue", "alphabetic", "uppercase", "lowercase"]:
    t = open(f"{KIT}/ucd_derived/src/tables/{p}.rt").read()
    m = re.search(r"static (%s_RUNS): (\[u32; \d+\]) = (\[.*?\]);" % p.upper(), t, re.S)
    out += f"static {m.group(1)}: {m.group(2)} = {m.group(3)};\n"
    out += f"pub fn is_{p}(c: char) -> bool {{ in_runs(&{m.group(1)}, c as u32) }}\n"
out += """fn in_runs(runs: &[u32], c: u32) -> bool {
    let at = runs.partition_point(|run| run / 2048 <= c);
    match runs.get(at) { Some(run) => run % 2048 == 1, None => false }
}
}
"""
write(f"{HERE}/libs/unicode/src/lib.rs", out)
write(f"{HERE}/libs/unicode_ident/src/lib.rs", "pub use unicode::properties::{is_xid_continue, is_xid_start};\n")
