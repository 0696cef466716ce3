#!/usr/bin/env python3
"""Writes a roster and the step lines of a whole run: each device joins, and each of its frames is heard and its window closed.

    python3 bench/whole_runs.py DEVICES FRAMES GATEWAYS NAME

It writes NAME.json and NAME.steps; time `lorawan_ns replay NAME.json < NAME.steps`. It needs the Python package `cryptography`.
Devices' EUIs are spread evenly over the shards. Every session has the same keys, so only the address tells devices apart.
"""

import json
import struct
import sys

from cryptography.hazmat.primitives.ciphers import algorithms
from cryptography.hazmat.primitives.cmac import CMAC

JOIN_EUI = 0x0102030401020304
NWK_S_KEY = bytes.fromhex("44024241ed4ce9a68c6a8bc055233fd3")
APP_S_KEY = "ec925802ae430ca77fd3dd73cb2cc588"


def answer(transaction, key=None):
    """A join server's answer, with this NwkSKey or the one of all."""
    return json.dumps({
        "AppSKey": {"AESKey": APP_S_KEY, "KEKLabel": ""},
        "MessageType": "JoinAns",
        "NwkSKey": {"AESKey": (key or NWK_S_KEY).hex(), "KEKLabel": ""},
        "PHYPayload": "20000102030405060708090a0b0c0d0e0f",
        "Result": {"ResultCode": "Success"},
        "TransactionID": transaction,
    }, separators=(",", ":"))


def heard(gateway, frame):
    """The step line of a frame that a gateway heard."""
    header = b"\x01\x01" + struct.pack(">QQIBhhB", 0xa0 + gateway, 1_000_000, 868_100_000, 5, -950, 75, len(frame))
    return f"heard {(header + frame).hex()}\n"


def join_request(eui, transaction):
    """A Join-Request with DevNonce 1 and any MIC: the join server checks it, and here that always answers."""
    return b"\0" + struct.pack("<QQHI", JOIN_EUI, eui, 1, transaction)


def uplink(addr, counter, key=None):
    """An unconfirmed uplink of 16 enciphered bytes on port 1, with its MIC under this NwkSKey or the one of all."""
    front = b"\x40" + struct.pack("<IBHB", addr, 0, counter % 65_536, 1) + bytes(16)
    mic = CMAC(algorithms.AES(key or NWK_S_KEY))
    mic.update(b"\x49" + bytes(5) + struct.pack("<II", addr, counter) + bytes([0, len(front)]) + front)
    return front + mic.finalize()[:4]


def main():
    devices, frames, gateways = (int(word) for word in sys.argv[1:4])
    name = sys.argv[4]
    euis = range(1, devices + 1)
    roster = [{"dev_eui": f"{eui:016x}", "join_eui": f"{JOIN_EUI:016x}", "slot": (eui - 1) // 16} for eui in euis]
    with open(name + ".json", "w") as file:
        json.dump({"version": 1, "net_id": "000024", "rx1_offset": 0, "rx_delay": 1, "devices": roster}, file)
    with open(name + ".steps", "w") as steps:
        for eui in euis:
            request = join_request(eui, eui)
            steps.write(heard(0, request))
            steps.write(f"answer {request.hex()} {answer(eui)}\n")
        for counter in range(frames):
            for eui in euis:
                frame = uplink((0x24 << 25) | (eui % 16 << 21) | (eui - 1) // 16, counter)
                for gateway in range(gateways):
                    steps.write(heard(gateway, frame))
                steps.write(f"close {eui:016x} 1 {counter}\n")


if __name__ == "__main__":
    main()
