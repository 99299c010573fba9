#!/usr/bin/env python3
"""Moves the lemma files that stood below a proof by hand, proofs/M/F/Proof/X.antt, beside the function's folder, as proofs/M/FX.antt, where
answers and invariants can both name them. Run at the top, after port_names.py and the turn of the proofs."""
import os
import re
import subprocess


def camel(name):
    return "".join(p.capitalize() for p in name.lstrip("+").split("_"))


def files(top):
    for folder, dirs, names in os.walk(top):
        dirs[:] = sorted(d for d in dirs if d not in ("out", "target", ".git"))
        for name in sorted(names):
            if name.endswith((".antt", ".rt")):
                yield os.path.join(folder, name)


moved = []
for path in list(files("crates")):
    m = re.match(r"crates/(\w+)/proofs/((?:.+/)?)([^/]+)/Proof/(\w+)\.antt$", path)
    if m:
        crate, module, function, name = m.groups()
        moved.append((path, crate, module, function, name, camel(function) + name))
for path, crate, module, function, name, new in moved:
    base = f"crates/{crate}/proofs/"
    subprocess.run(["git", "mv", path, f"{base}{module}{new}.antt"], check=True)
    node = base + (module.rstrip("/") + ".antt" if module else "Lib.antt")
    text = open(node).read() if os.path.exists(node) else ""
    with open(node, "w") as f:
        f.write(text + f"pub mod {new}\n")
    dotted = module.replace("/", ".")
    old_path, new_path = f"Rattle.{crate}.proofs.{dotted}{function}.Proof.{name}", f"Rattle.{crate}.proofs.{dotted}{new}"
    for p in files(f"crates/{crate}"):
        t = open(p).read()
        u = t.replace(old_path, new_path)
        if p.startswith(f"{base}{module}{function}/"):
            u = re.sub(rf"(?m)^(pub )?mod {name}\n\n?", "", u)
            u = re.sub(rf"(?m)^((?:pub )?use ){name}(?=[. ])", rf"\g<1>{new_path}", u)
        if u != t:
            open(p, "w").write(u)
print(f"{len(moved)} files moved")
