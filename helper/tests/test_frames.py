"""Frames in pieces, frames that are none, and the exit statuses."""

import os
import pathlib
import resource
import select
import socket
import struct
import subprocess
import tempfile
import unittest

from peer import CONFIRM, FALSE, PROGRAM, REFUSED, Ended, Helper, sign_body, string, verify_body

DONE, BAD_FRAME, USAGE, FILE_FAULT, BAD_FILE, MEMORY, READ_FAULT, WRITE_FAULT, TORN_END = range(9)
TICKET = "00" * 16
BODY = verify_body(1, b"", b"", b"")


def status(*words):
    run = subprocess.run([PROGRAM, *words], stderr=subprocess.PIPE, timeout=20)
    assert run.returncode == 0 or run.stderr.count(b"\n") == 1
    return run.returncode


class Frames(unittest.TestCase):
    def test_the_hello_names_the_job_and_the_ticket(self):
        ticket = bytes(range(16))
        with Helper(job=2**64 - 1, ticket=ticket) as helper:
            self.assertEqual(helper.hello, b"\1" + b"\xff" * 8 + string(ticket))

    def test_frames_that_come_a_byte_at_a_time_are_answered(self):
        with Helper() as helper:
            helper.trickle(string(BODY) + string(sign_body(2, b"", b"", b"")))
            self.assertEqual(helper.body(), struct.pack(">BQ", FALSE, 1))
            self.assertEqual(helper.body(), struct.pack(">BQ", REFUSED, 2))
            self.assertEqual(helper.end(), DONE)

    def test_frames_that_come_together_are_answered_in_order(self):
        with Helper() as helper:
            helper.peer.sendall(b"".join(string(verify_body(n, b"", b"", b"")) for n in range(9)))
            for number in range(9):
                self.assertEqual(helper.body(), struct.pack(">BQ", FALSE, number))
            self.assertEqual(helper.end(), DONE)

    def test_a_body_of_1048576_bytes_is_read_and_one_more_is_not(self):
        most = 1048576
        for extra, ends in ((0, DONE), (1, BAD_FRAME)):
            helper = Helper()
            body = verify_body(1, b"", b"", bytes(most - len(BODY) + extra))
            if extra == 0:
                self.assertEqual(helper.ask(body), (FALSE, 1, b""))
            else:
                helper.peer.sendall(struct.pack(">I", len(body)))
                self.assertRaises(Ended, helper.body)
            self.assertEqual(helper.end(), ends)

    def test_a_frame_that_is_none_ends_the_program(self):
        bad = {
            "of no bytes": b"",
            "of its kind alone": b"\1",
            "without its last byte": BODY[:-1],
            "with a byte behind": BODY + b"\0",
            "of a sign without flags": sign_body(1, b"", b"", b"")[:-4],
            "with a string that is too long": BODY[:-4] + b"\xff\xff\xff\xff",
            "of a question to the user": struct.pack(">BQ", CONFIRM, 1) + string(b"Allow?"),
            **{f"of kind {kind}": bytes([kind]) + BODY[1:] for kind in (0, 4, 101, 102, 255)},
        }
        for name, body in bad.items():
            for send in (lambda helper: helper.peer.sendall, lambda helper: helper.trickle):
                with self.subTest(name):
                    helper = Helper()
                    self.assertEqual(helper.ask(BODY), (FALSE, 1, b""))
                    send(helper)(string(body))
                    self.assertRaises(Ended, helper.body)
                    self.assertEqual(helper.end(), BAD_FRAME)

    def test_an_end_within_a_frame_is_torn(self):
        for cut in (1, 3, 4, 5, 4 + len(BODY) - 1):
            with self.subTest(cut):
                helper = Helper()
                helper.trickle(string(BODY)[:cut])
                self.assertEqual(helper.end(), TORN_END)


class Statuses(unittest.TestCase):
    def test_other_words_are_usage(self):
        for words in ((), ("s",), ("s", "1"), ("s", "1", TICKET, "d", "e"), ("s", "x", TICKET),
                      ("s", "1", TICKET[1:]), ("s", "01", TICKET), ("s", "1", "zz" * 16)):
            with self.subTest(words):
                self.assertEqual(status(*words), USAGE)

    def test_data_that_cannot_be_read_is_a_file_fault(self):
        with tempfile.NamedTemporaryFile() as long:
            long.write(bytes(1048577))
            long.flush()
            for data in ("/no/such/file", "/", long.name):
                with self.subTest(data):
                    self.assertEqual(status("s", "1", TICKET, data), FILE_FAULT)

    def test_data_of_another_form_is_a_bad_file(self):
        line = b"1" * 64 + b" " + b"a" * 64 + b"\n"
        texts = [line[:-1], line[1:], line.replace(b" ", b"\t"), line.replace(b"a", b"g"),
                 line + b"\n", line[:-1] + b"\r\n", bytes(1048576)]
        for text in texts:
            with self.subTest(text[:200]), tempfile.NamedTemporaryFile() as data:
                data.write(text)
                data.flush()
                self.assertEqual(status("s", "1", TICKET, data.name), BAD_FILE)

    def test_a_socket_that_is_not_there_is_a_write_fault(self):
        self.assertEqual(status("/no/such/socket", "1", TICKET), WRITE_FAULT)

    def test_an_agent_that_hears_no_more_is_a_write_fault(self):
        helper = Helper()
        helper.peer.shutdown(socket.SHUT_RD)
        helper.peer.sendall(string(BODY))
        self.assertEqual(helper.process.wait(20), WRITE_FAULT)
        helper.end()

    def test_an_agent_that_leaves_before_the_hello_is_heard_is_a_read_fault(self):
        with tempfile.TemporaryDirectory() as folder, socket.socket(socket.AF_UNIX) as listener:
            listener.bind(folder + "/children")
            listener.listen()
            words = [PROGRAM, folder + "/children", "1", TICKET]
            with subprocess.Popen(words, stderr=subprocess.DEVNULL) as process:
                peer, _ = listener.accept()
                select.select([peer], [], [], 20)
                peer.close()
                self.assertEqual(process.wait(20), READ_FAULT)

    def test_a_body_that_finds_no_room_is_want_of_memory(self):
        helper = Helper()
        self.assertEqual(helper.ask(BODY), (FALSE, 1, b""))
        pages = int(pathlib.Path(f"/proc/{helper.process.pid}/statm").read_text().split()[0])
        room = pages * os.sysconf("SC_PAGE_SIZE")
        resource.prlimit(helper.process.pid, resource.RLIMIT_AS, (room, room))
        helper.peer.sendall(struct.pack(">I", 1048576))
        self.assertEqual(helper.process.wait(20), MEMORY)
        helper.end()


if __name__ == "__main__":
    unittest.main()
