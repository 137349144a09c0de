"""A repository behind an HTTP server, whose threads share it.

    python3 bindings/python/http_server.py [PORT]

`PUT /COLLECTION/KEY` puts the record that is sent, DAG-CBOR, `DELETE` takes it out, and both answer the root after it; `GET` answers the record;
`GET /COLLECTION/KEY?proof` answers the root and the nodes that prove what the repository has under the key, a line each, in hexadecimal digits.
What is refused is answered by the name of its fault.
"""
import http.server
import sys
import threading
import time

import tizulgech

DID = "did:web:example.com"
DIGITS = "234567abcdefghijklmnopqrstuvwxyz"
MOST_BYTES = 1 << 20
STATUS = {"NONE": 404, "KEY_EXISTS": 409, "RECORD_SIZE": 413, "CLOSED": 503, "WRITES_FULL": 507}


class Server(http.server.ThreadingHTTPServer):
    """Each request has a thread; all of them have one repository."""

    # So that the server's end waits for the requests that are under way.
    daemon_threads = False
    request_queue_size = 128

    def __init__(self, address, limit=1_000_000):
        super().__init__(address, Handler)
        self.repository = tizulgech.Repository(limit)
        # Revisions ascend, so one is taken and used at a time. All else is for the repository's own lock.
        self.order, self.last = threading.Lock(), 0

    def apply(self, write):
        with self.order:
            self.last = max(self.last + 1, time.time_ns() // 1000 << 10)
            rev = "".join(DIGITS[self.last >> 5 * it & 31] for it in reversed(range(13)))
            return self.repository.apply(DID, rev, [write]).root

    def proof(self, key):
        """A root and a proof of it: both are read once more where a batch came in between."""
        while True:
            root, proof = self.repository.root, self.repository.prove(key)
            if tizulgech.Cid.of(proof[0]) == root:
                return root, proof

    def server_close(self):
        super().server_close()
        self.repository.close()


class Handler(http.server.BaseHTTPRequestHandler):
    # An answer is sent as one, and who sends nothing for so many seconds is let go.
    wbufsize, timeout = -1, 60

    def do_GET(self):
        self.answer(self.get)

    def do_PUT(self):
        self.answer(self.put)

    def do_DELETE(self):
        self.answer(lambda: str(self.server.apply(tizulgech.Delete(self.path[1:]))).encode())

    def get(self):
        key, _, query = self.path[1:].partition("?")
        if query == "proof":
            root, proof = self.server.proof(key)
            return "\n".join([str(root), *(it.hex() for it in proof)]).encode()
        record = self.server.repository.get(key)
        if record is None:
            raise tizulgech.Fault(24)
        return record

    def put(self):
        length = self.headers.get("Content-Length", "")
        if not (length.isascii() and length.isdigit() and int(length) <= MOST_BYTES):
            raise tizulgech.Fault(22)
        return str(self.server.apply(tizulgech.Put(self.path[1:], self.rfile.read(int(length))))).encode()

    def answer(self, made):
        try:
            status, content = 200, made()
        except tizulgech.Fault as fault:
            status, content = STATUS.get(fault.name, 400), fault.name.encode()
        self.send_response(status)
        self.send_header("Content-Length", str(len(content)))
        self.end_headers()
        self.wfile.write(content)

    def log_message(self, *_):
        pass


def main(port=8080):
    with Server(("127.0.0.1", int(port))) as server:
        print(f"http://127.0.0.1:{server.server_address[1]}", flush=True)
        try:
            server.serve_forever()
        except KeyboardInterrupt:
            pass


if __name__ == "__main__":
    main(*sys.argv[1:])
