"""AES-128 (FIPS 197) and AES-CMAC (RFC 4493) of a key: by the package `cryptography` where it is present, else by model.py, which
is slow."""
from functools import lru_cache
from threading import Lock

import model

try:
    from cryptography.hazmat.primitives.ciphers import algorithms
    from cryptography.hazmat.primitives.cmac import CMAC
    HAS_PACKAGE = model.AES is model.PackageAes
except ImportError:
    HAS_PACKAGE = False


class PackageKey:
    """A key of 16 bytes, for several threads: the package refuses a cipher that another thread is using. `encrypt` and `decrypt` take whole
    blocks."""

    def __init__(self, key):
        self.cipher, self.begun, self.lock = model.PackageAes(key), CMAC(algorithms.AES(key)), Lock()

    def encrypt(self, blocks):
        with self.lock:
            return self.cipher.encrypt(blocks)

    def decrypt(self, blocks):
        with self.lock:
            return self.cipher.decrypt(blocks)

    def mic(self, message):
        """The first four bytes of the CMAC."""
        with self.lock:
            code = self.begun.copy()
        code.update(message)
        return code.finalize()[:4]


class OwnKey:
    """The same without the package."""

    def __init__(self, key):
        self.key, self.cipher = key, model.OwnAes(key)

    def encrypt(self, blocks):
        return b''.join(self.cipher.encrypt(blocks[i:i + 16]) for i in range(0, len(blocks), 16))

    def decrypt(self, blocks):
        return b''.join(self.cipher.decrypt(blocks[i:i + 16]) for i in range(0, len(blocks), 16))

    def mic(self, message):
        return model.cmac(self.key, message)[:4]


@lru_cache(4096)
def of(key):
    """The ciphers of a key, kept for the keys that were used last."""
    return (PackageKey if HAS_PACKAGE else OwnKey)(key)
