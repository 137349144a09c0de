"""The example of a server, whose threads share a repository, under many clients."""
import http.client
import threading
import unittest

import tizulgech as t

from support import key, module, record, together

CLIENTS, TURNS = 24, 4


class ServerTest(unittest.TestCase):
    def setUp(self):
        self.server = module("bindings/python/http_server.py").Server(("127.0.0.1", 0), 10_000)
        self.thread = threading.Thread(target=self.server.serve_forever, args=(0.05,))
        self.thread.start()

    def tearDown(self):
        self.server.shutdown()
        self.thread.join()
        self.server.server_close()

    def ask(self, method, path, content=b"", headers={}):
        connection = http.client.HTTPConnection(*self.server.server_address, timeout=60)
        try:
            connection.request(method, f"/{path}", content, headers)
            answer = connection.getresponse()
            return answer.status, answer.read()
        finally:
            connection.close()

    def test_clients(self):
        faults, kept = [], {}

        def client(own):
            try:
                for turn in range(TURNS):
                    mine, content = key(100 * own + turn), record(100 * own + turn)
                    self.assertEqual(self.ask("GET", mine), (404, b"NONE"))
                    status, root = self.ask("PUT", mine, content)
                    self.assertEqual((status, len(root)), (200, 59), root)
                    self.assertEqual(self.ask("GET", mine), (200, content))
                    self.assertEqual(self.ask("PUT", mine, b"\xfb" + bytes(8)), (400, b"FLOAT"))
                    status, told = self.ask("GET", f"{mine}?proof")
                    root, *nodes = told.decode().split("\n")
                    self.assertEqual((status, t.verify(t.Cid.parse(root), map(bytes.fromhex, nodes), mine)), (200, t.Cid.of(content)))
                    if turn % 2:
                        self.assertEqual(self.ask("DELETE", mine)[0], 200)
                        self.assertEqual(self.ask("DELETE", mine), (404, b"NONE"))
                    else:
                        kept[mine] = t.Cid.of(content)
            except BaseException as it:
                faults.append(it)

        together([lambda own=own: client(own) for own in range(CLIENTS)])
        self.assertEqual(faults, [])
        repository = self.server.repository
        self.assertEqual((len(kept), repository.number), (CLIENTS * TURNS // 2, CLIENTS * TURNS * 3 // 2))
        self.assertEqual((repository.root, [(it.decode(), value) for it, value in repository]), (t.tree_root(sorted(kept.items()))[0], sorted(kept.items())))

    def test_refused(self):
        """What is refused, with the name of its fault: nothing is changed by it."""
        root = self.server.repository.root
        for method, path, content, answer in (
            ("GET", key(1), b"", (404, b"NONE")), ("DELETE", key(1), b"", (404, b"NONE")), ("PUT", "a", b"\xa0", (400, b"BAD_KEY")), ("PUT", key(1), b"", (400, b"TRUNCATED")),
            ("PUT", key(1), b"\x01", (400, b"NOT_A_MAP")),
        ):
            self.assertEqual(self.ask(method, path, content), answer)
        for length in ("-1", "x", str(1 << 40)):
            self.assertEqual(self.ask("PUT", key(1), None, {"Content-Length": length}), (413, b"RECORD_SIZE"))
        self.assertEqual(self.server.repository.root, root)

    def test_closed(self):
        """One that is closed beneath its server is told to whoever asks."""
        self.server.repository.close()
        for method, path in (("PUT", key(1)), ("DELETE", key(1)), ("GET", key(1)), ("GET", f"{key(1)}?proof")):
            self.assertEqual(self.ask(method, path, record(1)), (503, b"CLOSED"))


if __name__ == "__main__":
    unittest.main()
