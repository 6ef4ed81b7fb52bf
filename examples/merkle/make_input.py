"""Prints the input of member.circom: leaf 5 of a tree whose leaf i has the words i and i*i."""

import json
import os
import sys

sys.path.append(os.path.join(os.path.dirname(os.path.abspath(__file__)), "..", "..", "circuits"))
from cases import bits, path_of, poseidon_hash, poseidon_node

PLACE = 5
leaves = [[i, i * i] for i in range(8)]
root, path = path_of([poseidon_hash(leaf) for leaf in leaves], PLACE, poseidon_node)
values = {"leaf": leaves[PLACE], "place": bits(PLACE, 3), "path": path, "root": root}
print(json.dumps(values, indent=1))
