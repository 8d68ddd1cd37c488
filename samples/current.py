"""samples/current.py: prints which version of the signers' list is current in a pack."""
import sys

import vof

with open(sys.argv[1], "rb") as file:
    pack = file.read()
try:
    version = vof.current(pack, "herd", "signers/list")
except vof.Refusal as refusal:
    print(refusal, refusal.advice, sep="\n")
else:
    if version is None or version.is_delete_marker:
        print("there is no such object")
    else:
        print(version.identifier.ulid.decode())
