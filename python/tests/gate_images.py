"""What each of Stim's gates makes of X and Z on each of its qubits, restated from the definitions in Stim's list of gates.

A gate on one qubit has the images of X and Z; one on two those of X_, Z_, _X and _Z. For a square root of a product P, as SPP, an image
is worked out: what anticommutes with P becomes i times itself times P, and what commutes stays.
"""

ON_ONE = {
    "I": "+X +Z", "X": "+X -Z", "Y": "-X -Z", "Z": "-X +Z",
    "H": "+Z +X", "H_XZ": "+Z +X", "H_XY": "+Y -Z", "H_YZ": "-X +Y", "H_NXY": "-Y -Z", "H_NXZ": "-Z -X", "H_NYZ": "-X -Y",
    "S": "+Y +Z", "S_DAG": "-Y +Z", "SQRT_Z": "+Y +Z", "SQRT_Z_DAG": "-Y +Z",
    "SQRT_X": "+X -Y", "SQRT_X_DAG": "+X +Y", "SQRT_Y": "-Z +X", "SQRT_Y_DAG": "+Z -X",
    "C_XYZ": "+Y +X", "C_NXYZ": "-Y -X", "C_XNYZ": "-Y +X", "C_XYNZ": "+Y -X",
    "C_ZYX": "+Z +Y", "C_NZYX": "-Z -Y", "C_ZNYX": "+Z -Y", "C_ZYNX": "-Z +Y",
}
ON_TWO = {
    "II": "+X_ +Z_ +_X +_Z",
    "CX": "+XX +Z_ +_X +ZZ", "CNOT": "+XX +Z_ +_X +ZZ", "ZCX": "+XX +Z_ +_X +ZZ",
    "CY": "+XY +Z_ +ZX +ZZ", "ZCY": "+XY +Z_ +ZX +ZZ",
    "CZ": "+XZ +Z_ +ZX +_Z", "ZCZ": "+XZ +Z_ +ZX +_Z",
    "XCX": "+X_ +ZX +_X +XZ", "XCY": "+X_ +ZY +XX +XZ", "XCZ": "+X_ +ZZ +XX +_Z",
    "YCX": "+XX +ZX +_X +YZ", "YCY": "+XY +ZY +YX +YZ", "YCZ": "+XZ +ZZ +YX +_Z",
    "SWAP": "+_X +_Z +X_ +Z_", "ISWAP": "+ZY +_Z +YZ +Z_", "ISWAP_DAG": "-ZY +_Z -YZ +Z_",
    "CXSWAP": "+XX +_Z +X_ +ZZ", "SWAPCX": "+_X +ZZ +XX +Z_", "CZSWAP": "+ZX +_Z +XZ +Z_", "SWAPCZ": "+ZX +_Z +XZ +Z_",
    "SQRT_XX": "+X_ -YX +_X -XY", "SQRT_XX_DAG": "+X_ +YX +_X +XY",
    "SQRT_YY": "-ZY +XY -YZ +YX", "SQRT_YY_DAG": "+ZY -XY +YZ -YX",
    "SQRT_ZZ": "+YZ +Z_ +ZY +_Z", "SQRT_ZZ_DAG": "-YZ +Z_ -ZY +_Z",
}

# The product of two different letters, up to i, and whether it is i or -i times it.
TIMES = {("X", "Y"): ("Z", 1), ("Y", "Z"): ("X", 1), ("Z", "X"): ("Y", 1), ("Y", "X"): ("Z", 3), ("Z", "Y"): ("X", 3), ("X", "Z"): ("Y", 3)}


def product(left, right):
    """The product of two strings of letters, as a power of i and letters."""
    power, letters = 0, ""
    for a, b in zip(left, right, strict=True):
        letter, more = ("_", 0) if a == b else (b, 0) if a == "_" else (a, 0) if b == "_" else TIMES[a, b]
        power, letters = power + more, letters + letter
    return power % 4, letters


def images_of_root(letters, is_negative):
    """The images of X and Z on each qubit, by a square root of a product or of its negative."""
    found = []
    for place in range(len(letters)):
        for letter in "XZ":
            before = "_" * place + letter + "_" * (len(letters) - place - 1)
            power, after = product(before, letters)
            if power % 2 == 0:
                found.append("+" + before)
            else:
                found.append("+-"[(power + 1 + 2 * is_negative) % 4 == 2] + after)
    return found
