#!/usr/bin/env python3
# The null test: plays a take and its inverse through a circuit, and adds up the two outputs of each sample. From the repository's root:
#
#     python3 takes/null.py circuits/clipper-2.circuit takes/tone.raw
#
# It prints how many of the sums are not 0, and the largest of them.
import os
import struct
import subprocess
import sys

ROOT = os.path.join(os.path.dirname(os.path.abspath(__file__)), "..")


def inverse(take):
    """Each sample with the opposite sign; the lowest of all, -2^23, has none."""
    samples = [int.from_bytes(take[i:i + 3], "little", signed=True) for i in range(0, len(take), 3)]
    return b"".join((-x).to_bytes(3, "little", signed=True) for x in samples)


def played(circuit, take):
    """The outputs, in half microvolts."""
    written = subprocess.run([os.path.join(ROOT, "run"), "take"], input=circuit + take, stdout=subprocess.PIPE, check=True).stdout
    return [output for output, in struct.iter_unpack("<i", written)]


def residue(circuit, take):
    return [a + b for a, b in zip(played(circuit, take), played(circuit, inverse(take)), strict=True)]


def held(path):
    with open(path, "rb") as file:
        return file.read()


if __name__ == "__main__":
    circuit, take = sys.argv[1:]
    sums = residue(held(circuit), held(take))
    loud = [s for s in sums if s]
    if loud:
        print(f"{len(loud)} of {len(sums)} samples are not silent, the loudest {max(loud, key=abs)} half microvolts")
    else:
        print(f"{len(sums)} samples, and silence")
