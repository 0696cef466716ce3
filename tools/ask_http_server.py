#!/usr/bin/env python3
"""Has the join client ask a real HTTP server of another's making: Python's http.server, over a loopback socket.

    bench/times.sh PROGRAM                          builds the program
    python3 tools/ask_http_server.py PROGRAM

The server speaks HTTP/1.0 and HTTP/1.1, with and without a Content-Length, and once each it answers 404 and in chunks. It reads the
request by its own means and holds it against docs/FORMATS.md. No part of the merge gate. It ends by itself: each exchange has 10 s.
"""
import http.server
import os
import subprocess
import sys
import threading

JOIN_ANS = (b'{"AppSKey":{"AESKey":"ec925802ae430ca77fd3dd73cb2cc588","KEKLabel":""},"MessageType":"JoinAns",'
            b'"NwkSKey":{"AESKey":"44024241ed4ce9a68c6a8bc055233fd3","KEKLabel":""},'
            b'"PHYPayload":"20000102030405060708090a0b0c0d0e0f","Result":{"ResultCode":"Success"},"TransactionID":1}')
JOIN_REQ = (b'{"DLSettings":"00","DevAddr":"49be7df1","DevEUI":"000000000000000d","MACVersion":"1.0.4","MessageType":"JoinReq",'
            b'"PHYPayload":"0004030201040302010d00000000000000010001000000","ProtocolVersion":"1.0",'
            b'"ReceiverID":"0102030401020304","RxDelay":1,"SenderID":"000024","TransactionID":1}')
REQUEST_HEADERS = [("Host", "js.local"), ("Content-Type", "application/json"), ("Content-Length", "281"), ("Connection", "close")]

# version, status, Content-Length given, in chunks, what the client prints
CASES = [
    ("HTTP/1.0", 200, True, False, "answer 4402"),
    ("HTTP/1.0", 200, False, False, "answer 4402"),
    ("HTTP/1.1", 200, True, False, "answer 4402"),
    ("HTTP/1.1", 200, False, False, "answer 4402"),
    ("HTTP/1.1", 404, True, False, "H4"),
    ("HTTP/1.1", 200, False, True, "H5"),
]


def handler(version, status, has_length, in_chunks, asked):
    class JoinServer(http.server.BaseHTTPRequestHandler):
        protocol_version = version
        timeout = 10

        def do_POST(self):
            body = self.rfile.read(int(self.headers["Content-Length"]))
            asked.append((self.requestline, list(self.headers.items()), body))
            self.send_response(status)
            self.send_header("content-type", "application/json")
            if has_length:
                self.send_header("content-length", "%06d" % len(JOIN_ANS))
            if in_chunks:
                self.send_header("transfer-encoding", "chunked")
            self.send_header("connection", "close")
            self.end_headers()
            self.wfile.write(b"%x\r\n%s\r\n0\r\n\r\n" % (len(JOIN_ANS), JOIN_ANS) if in_chunks else JOIN_ANS)

        def log_message(self, *words):
            pass

    return JoinServer


def main():
    if len(sys.argv) != 2:
        sys.exit(__doc__)
    program = os.path.abspath(sys.argv[1])
    wrong = 0
    for version, status, has_length, in_chunks, wanted in CASES:
        asked = []
        with http.server.HTTPServer(("127.0.0.1", 0), handler(version, status, has_length, in_chunks, asked)) as server:
            server.timeout = 10
            thread = threading.Thread(target=server.handle_request)
            thread.start()
            ran = subprocess.run([program, "joinclient,127.0.0.1:%d" % server.server_port], capture_output=True, text=True, timeout=10)
            thread.join()
        printed = ran.stdout.strip()
        good = printed == wanted and asked == [("POST / HTTP/1.1", REQUEST_HEADERS, JOIN_REQ)]
        wrong += not good
        print("%-4s %s %d%s%s: %s" % ("ok" if good else "BAD", version, status, " with Content-Length" if has_length else "",
                                      " in chunks" if in_chunks else "", printed or ran.stderr.strip()))
    sys.exit(1 if wrong else 0)


main()
