#!/usr/bin/env python3
"""Makes the vectors that the program `vectors` runs: published ones, checked here against Python's hashlib, hmac
and cryptography, and more made by these. Run it when vectors are added:

    python3 tests/make_lock_vectors.py

It writes crates/vectors/stdin, one vector to a line, and crates/vectors/stdout, their count.
Fields are hex, and - is no bytes."""

import hashlib
import hmac
import struct
from pathlib import Path

from cryptography.hazmat.primitives.ciphers import Cipher, algorithms

ROOT = Path(__file__).resolve().parent.parent
LINES = []


def put(kind, *fields):
    LINES.append(" ".join([kind] + [f.hex() or "-" for f in fields]))


def filler(n, start=0):
    """Bytes without a pattern that repeats with the block size."""
    return bytes((start + 7 * i + (i // 251)) % 256 for i in range(n))


# ---- SHA-256: RFC 6234 section 8.5, and lengths around the ends of blocks

PUBLISHED_SHA = [
    (b"", "e3b0c44298fc1c149afbf4c8996fb92427ae41e4649b934ca495991b7852b855"),
    (b"abc", "ba7816bf8f01cfea414140de5dae2223b00361a396177a9cb410ff61f20015ad"),
    (
        b"abcdbcdecdefdefgefghfghighijhijkijkljklmklmnlmnomnopnopq",
        "248d6a61d20638b8e5c026930c3e6039a33ce45964ff2167f6ecedd419db06c1",
    ),
    (b"01234567" * 80, "594847328451bdfa85056225462cc1d867d877fb388df0ce35f25ab5562bfbb5"),
    (b"\x19", "68aa2e2ee5dff96e3355e6c7ee373e3d6a4e17f75f9518d843709c0c9bc3e3d4"),
    (
        bytes.fromhex("e3d72570dcdd787ce3887ab2cd684652"),
        "175ee69b02ba9b58e2b0a5fd13819cea573f3940a94f825128cf4209beabb4e8",
    ),
]
for message, digest in PUBLISHED_SHA:
    assert hashlib.sha256(message).hexdigest() == digest
    put("sha256", message, bytes.fromhex(digest))

MILLION = "cdc76e5c9914fb9281a1c7e284d73e67f1809a48a497200e046d39ccc7112cd0"
assert hashlib.sha256(b"a" * 1000000).hexdigest() == MILLION
put("repeat", b"a", (1000000).to_bytes(4, "big"), bytes.fromhex(MILLION))

for n in [1, 2, 31, 32, 54, 55, 56, 57, 62, 63, 64, 65, 66, 111, 112, 118, 119, 120, 121, 127, 128, 129, 191, 192, 1000]:
    message = filler(n)
    put("sha256", message, hashlib.sha256(message).digest())

# ---- HMAC-SHA-256: RFC 4231, and lengths of keys around a block

LARGER_KEY = b"Test Using Larger Than Block-Size Key - Hash Key First"
LARGER_BOTH = (
    b"This is a test using a larger than block-size key and a larger than block-size data. "
    b"The key needs to be hashed before being used by the HMAC algorithm."
)
PUBLISHED_HMAC = [
    (b"\x0b" * 20, b"Hi There", "b0344c61d8db38535ca8afceaf0bf12b881dc200c9833da726e9376c2e32cff7"),
    (b"Jefe", b"what do ya want for nothing?", "5bdcc146bf60754e6a042426089575c75a003f089d2739839dec58b964ec3843"),
    (b"\xaa" * 20, b"\xdd" * 50, "773ea91e36800e46854db8ebd09181a72959098b3ef8c122d9635514ced565fe"),
    (bytes(range(1, 26)), b"\xcd" * 50, "82558a389a443c0ea4cc819899f2083a85f0faa3e578f8077a2e3ff46729665b"),
    (b"\x0c" * 20, b"Test With Truncation", "a3b6167473100ee06e0c796c2955552b"),
    (b"\xaa" * 131, LARGER_KEY, "60e431591ee0b67f0d8a26aacbf5b77f8e0bc6213728c5140546040f0ee37f54"),
    (b"\xaa" * 131, LARGER_BOTH, "9b09ffa71b942fcb27635fbcd5b0e944bfdc63644f0713938a7f51535c3a35e2"),
]


def mac(key, message):
    return hmac.new(key, message, hashlib.sha256).digest()


for key, message, code in PUBLISHED_HMAC:
    assert mac(key, message).hex().startswith(code)
    put("hmac", key, message, mac(key, message))
for n in [0, 1, 31, 32, 63, 64, 65, 127, 128, 200]:
    put("hmac", filler(n, 3), filler(2 * n, 5), mac(filler(n, 3), filler(2 * n, 5)))

# ---- ChaCha20: RFC 8439 sections 2.3.2, 2.4.2, A.1 and A.2

MASK = 0xFFFFFFFF


def quarter(s, a, b, c, d):
    def roll(x, n):
        return (x << n | x >> (32 - n)) & MASK

    s[a] = s[a] + s[b] & MASK
    s[d] = roll(s[d] ^ s[a], 16)
    s[c] = s[c] + s[d] & MASK
    s[b] = roll(s[b] ^ s[c], 12)
    s[a] = s[a] + s[b] & MASK
    s[d] = roll(s[d] ^ s[a], 8)
    s[c] = s[c] + s[d] & MASK
    s[b] = roll(s[b] ^ s[c], 7)


def block(key, counter, nonce):
    state = list(struct.unpack("<4I", b"expand 32-byte k")) + list(struct.unpack("<8I", key))
    state += [counter & MASK] + list(struct.unpack("<3I", nonce))
    w = state[:]
    for _ in range(10):
        for i in range(4):
            quarter(w, i, 4 + i, 8 + i, 12 + i)
        for i in range(4):
            quarter(w, i, 4 + (i + 1) % 4, 8 + (i + 2) % 4, 12 + (i + 3) % 4)
    return struct.pack("<16I", *[(x + y) & MASK for x, y in zip(w, state)])


def plain_turned(key, counter, nonce, data):
    stream = b"".join(block(key, counter + i, nonce) for i in range((len(data) + 63) // 64))
    return bytes(x ^ y for x, y in zip(data, stream))


def turned(key, counter, nonce, data):
    cipher = Cipher(algorithms.ChaCha20(key, struct.pack("<I", counter) + nonce), None)
    out = cipher.encryptor().update(data)
    assert out == plain_turned(key, counter, nonce, data)
    return out


def chacha(key, counter, nonce, data, published=None):
    out = turned(key, counter, nonce, data)
    assert published is None or out.hex() == published, out.hex()
    put("chacha20", key, nonce, counter.to_bytes(4, "big"), data, out)


COUNTING = bytes(range(32))
SUNSCREEN = (
    b"Ladies and Gentlemen of the class of '99: If I could offer you only one tip for the future, "
    b"sunscreen would be it."
)
IETF = (
    b"Any submission to the IETF intended by the Contributor for publication as all or part of an IETF "
    b"Internet-Draft or RFC and any statement made within the context of an IETF activity is considered an "
    b"\"IETF Contribution\". Such statements include oral statements in IETF sessions, as well as written and "
    b"electronic communications made at any time or place, which are addressed to"
)
BRILLIG = (
    b"'Twas brillig, and the slithy toves\nDid gyre and gimble in the wabe:\n"
    b"All mimsy were the borogoves,\nAnd the mome raths outgrabe."
)
assert len(IETF) == 375
ZERO_KEY, ZERO_NONCE = bytes(32), bytes(12)
ONE_KEY, TWO_NONCE = bytes(31) + b"\x01", bytes(11) + b"\x02"
BLOCKS = [
    (
        COUNTING, 1, "000000090000004a00000000",
        "10f1e7e4d13b5915500fdd1fa32071c4c7d1f4c733c068030422aa9ac3d46c4e"
        "d2826446079faa0914c2d705d98b02a2b5129cd1de164eb9cbd083e8a2503c4e",
    ),
    (
        ZERO_KEY, 0, ZERO_NONCE.hex(),
        "76b8e0ada0f13d90405d6ae55386bd28bdd219b8a08ded1aa836efcc8b770dc7"
        "da41597c5157488d7724e03fb8d84a376a43b8f41518a11cc387b669b2ee6586",
    ),
    (
        ZERO_KEY, 1, ZERO_NONCE.hex(),
        "9f07e7be5551387a98ba977c732d080dcb0f29a048e3656912c6533e32ee7aed"
        "29b721769ce64e43d57133b074d839d531ed1f28510afb45ace10a1f4b794d6f",
    ),
    (
        ONE_KEY, 1, ZERO_NONCE.hex(),
        "3aeb5224ecf849929b9d828db1ced4dd832025e8018b8160b82284f3c949aa5a"
        "8eca00bbb4a73bdad192b5c42f73f2fd4e273644c8b36125a64addeb006c13a0",
    ),
    (
        b"\x00\xff" + bytes(30), 2, ZERO_NONCE.hex(),
        "72d54dfbf12ec44b362692df94137f328fea8da73990265ec1bbbea1ae9af0ca"
        "13b25aa26cb4a648cb9b9d1be65b2c0924a66c54d545ec1b7374f4872e99f096",
    ),
    (
        ZERO_KEY, 0, TWO_NONCE.hex(),
        "c2c64d378cd536374ae204b9ef933fcd1a8b2288b3dfa49672ab765b54ee27c7"
        "8a970e0e955c14f3a88e741b97c286f75f8fc299e8148362fa198a39531bed6d",
    ),
]
for key, counter, nonce, published in BLOCKS:
    out = block(key, counter, bytes.fromhex(nonce))
    assert out.hex() == published and out == turned(key, counter, bytes.fromhex(nonce), bytes(64))
    put("block", key, bytes.fromhex(nonce), counter.to_bytes(4, "big"), out)

chacha(
    COUNTING, 1, bytes.fromhex("000000000000004a00000000"), SUNSCREEN,
    "6e2e359a2568f98041ba0728dd0d6981e97e7aec1d4360c20a27afccfd9fae0b"
    "f91b65c5524733ab8f593dabcd62b3571639d624e65152ab8f530c359f0861d8"
    "07ca0dbf500d6a6156a38e088a22b65e52bc514d16ccf806818ce91ab7793736"
    "5af90bbf74a35be6b40b8eedf2785e42874d",
)
chacha(ZERO_KEY, 0, ZERO_NONCE, bytes(64), BLOCKS[1][3])
chacha(ONE_KEY, 1, TWO_NONCE, IETF)
chacha(
    bytes.fromhex("1c9240a5eb55d38af333888604f6b5f0473917c1402b80099dca5cbc207075c0"), 42, TWO_NONCE, BRILLIG,
    "62e6347f95ed87a45ffae7426f27a1df5fb69110044c0d73118effa95b01e5cf"
    "166d3df2d721caf9b21e5fb14c616871fd84c54f9d65b283196c7fe4f60553eb"
    "f39c6402c42234e32a356b3e764312a61a5532055716ead6962568f87d3f3f77"
    "04c6a8d1bcd1bf4d50d6154b6da731b187b58dfd728afa36757a797ac188d1",
)
for counter in [0, 1]:
    for n in [0, 1, 15, 16, 63, 64, 65, 127, 128, 129, 375, 1053]:
        chacha(filler(32, 9 + counter), counter, filler(12, n % 256), filler(n, 11))
# the counter goes on at 0 after 2^32 - 1: the plain code above, since OpenSSL carries into the nonce
key, nonce, data = filler(32, 77), filler(12, 78), filler(130, 79)
put("chacha20", key, nonce, b"\xff" * 4, data, plain_turned(key, MASK, nonce, data))

# ---- digests of a key and a number

for i in range(4):
    key, number = filler(32, 40 + i), filler(16, 50 + i)
    put("digest", key, number, hashlib.sha256(key + number).digest()[:16])

# ---- locks


def lock(kind, key, drawn, inside):
    body = drawn + turned(mac(key, bytes([1, kind])), 0, drawn[:12], inside)
    return body + mac(key, bytes([2, kind]) + body)[:16]


SIZES = [45, 59, 31, 25, 17, 0, 1, 63, 64, 65, 128, 29, 1053, 45, 59, 30, 25, 17, 500, 1024]
for i, n in enumerate(SIZES):
    kind, key, drawn, inside = 1 + i % 5, filler(32, 100 + i), filler(16, 60 + 3 * i), filler(n, 20 + i)
    put("lock", bytes([kind]), key, drawn, inside, lock(kind, key, drawn, inside))

# words that do not open: too short, another kind, another key, one bit changed anywhere of note
key, drawn, inside = filler(32, 7), filler(16, 8), filler(45, 9)
good = lock(1, key, drawn, inside)
put("shut", b"\x02", key, good)
put("shut", b"\x01", filler(32, 6), good)
for at in [0, 11, 12, 15, 16, 40, 60, 61, 68, 75, 76]:
    put("shut", b"\x01", key, good[:at] + bytes([good[at] ^ 1]) + good[at + 1 :])
for n in [0, 1, 15, 16, 31, 32, 33]:
    put("shut", b"\x03", key, good[:n])
put("shut", b"\x01", key, good[:-1])
put("shut", b"\x01", key, good + b"\x00")

out = ROOT / "crates" / "vectors"
(out / "stdin").write_text("\n".join(LINES) + "\n")
(out / "stdout").write_text(f"{len(LINES)}\n")
print(len(LINES), "vectors")
