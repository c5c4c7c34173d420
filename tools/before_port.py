"""Run once, before the kit's port.py: in proofs/Unique.antt a generated module is brought in under a name of its function. Some of these names are
words of today's library, which port.py takes for the sign of a file that is turned already; they are written with a hyphen."""
import glob
import re

for path in sorted(glob.glob("crates/*/proofs/Unique.antt")):
    with open(path, encoding="utf-8") as f:
        text = f.read()
    names = [name for name in re.findall(r"\.Reads as (\w+)$", text, re.M) if "_" in name]
    for name in names:
        text = re.sub(r"(?<= as )%s$|(?<=Determines )%s(?=\.)|(?<=DeterminesBytes )%s(?=\.)" % (name, name, name), name.replace("_", "-"), text, flags=re.M)
    with open(path, "w", encoding="utf-8") as f:
        f.write(text)
