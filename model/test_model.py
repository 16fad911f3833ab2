"""The model alone, without a built program: python3 -m unittest model.test_model, from the top."""

import importlib
import unittest
from pathlib import Path

from . import rows_audit, rows_record
from .agent import WAITS
from .audit import audit, first_difference
from .differential import read_wrong
from .differential_audit import Case
from .generate import Schedule
from .played import Played
from .record import Entry, Recorder, record
from .replay import Run, replay
from .replays import fault
from .rows_deadlines import RAISED
from .rows_secrets import EVERY_ROW
from .wire import Fault, matches, string, take_frame, uint32, uint64


class Modules(unittest.TestCase):
    def test_each_is_imported(self):
        for path in Path(__file__).parent.glob("*.py"):
            importlib.import_module(f"model.{path.stem}")


class Rows(unittest.TestCase):
    """Literal schedules, put together by the documents, print what the documents say."""

    def test_each_row(self):
        names = [row.name for row in EVERY_ROW]
        self.assertEqual(len(names), len(set(names)))
        for row in EVERY_ROW:
            with self.subTest(row.name):
                self.assertEqual(replay(row.schedule, row.life, row.limit), (row.printed, row.status))


class Moments(unittest.TestCase):
    """A port that the moment of an event closes."""

    def test_an_event_of_such_a_port_brings_nothing(self):
        for word, given in (("hear", b"\0\0\0\1\x0b"), ("take", 1), ("end", None)):
            run = Run()
            for line in RAISED[1:]:
                run.line(line.encode())
            agent = run.agent
            agent.waits = WAITS
            agent.event(300, 0, getattr(agent, word), *[2] if given is None else [2, given])
            self.assertEqual((agent.closes, agent.confirmations, list(agent.ports)), ([2], {}, [1]))
            self.assertEqual(agent.ports[1].owed, string(b"\x05"))


class Schedules(unittest.TestCase):
    """What is written at random."""

    def test_a_seed_gives_the_same_schedule_again(self):
        for seed in map(str, range(20)):
            self.assertEqual(Schedule(seed).case(), Schedule(seed).case())

    def test_what_is_expected_is_what_the_model_prints(self):
        for seed in map(str, range(20)):
            writer = Schedule(seed)
            text, life, wanted = writer.case()
            self.assertEqual(replay(text, life, writer.limit), wanted)


class Records(unittest.TestCase):
    def test_each_row(self):
        names = [row.name for row in rows_record.ROWS]
        self.assertEqual(len(names), len(set(names)))
        for row in rows_record.ROWS:
            with self.subTest(row.name):
                self.assertEqual(record(row.journal), row.record)
                if row.printed is not None:
                    self.assertEqual(replay(row.record), (row.printed, 0))

    def test_random_runs_are_those_of_their_records(self):
        for seed in map(str, range(20)):
            with self.subTest(seed):
                self.assertIsNone(fault(Played(seed)))

    def test_a_seed_gives_the_same_journal_again(self):
        for seed in map(str, range(5)):
            self.assertEqual(Played(seed).journal(), Played(seed).journal())

    def test_nothing_is_written_behind_a_write_that_failed(self):
        journal = [*rows_record.BOUND, *rows_record.JOIN, *rows_record.JOIN]
        whole = record(journal).splitlines(keepends=True)
        for fails in range(len(whole)):
            written: list[bytes] = []
            recorder = Recorder(lambda line: written.append(line) or len(written) != fails + 1)
            for entry in journal:
                recorder.record(entry)
            self.assertEqual(written, whole[: fails + 1])
            self.assertTrue(recorder.broken)
        self.assertEqual(record([Entry("poll", None)]), b"")


class Audits(unittest.TestCase):
    def test_each_row(self):
        names = [row.name for row in rows_audit.ROWS]
        self.assertEqual(len(names), len(set(names)))
        for row in rows_audit.ROWS:
            with self.subTest(row.name):
                self.assertEqual(audit(row.words, row.files.get), (row.printed, row.status))

    def test_what_differs(self):
        for one, other, line in [
            (b"", b"", None),
            (b"a\n", b"a\n", None),
            (b"a\n", b"a", 1),
            (b"a\nb\n", b"a\nb", 2),
            (b"a\n", b"", 1),
            (b"a\n", b"a\n\n", 2),
            (b"a\rb\n", b"a\nb\n", 1),
        ]:
            self.assertEqual(first_difference(one, other), line)
            self.assertEqual(first_difference(other, one), line)

    def test_a_seed_gives_the_same_pair_again(self):
        for seed in map(str, range(5)):
            self.assertEqual(vars(Case(seed)), vars(Case(seed)))


class WrongModels(unittest.TestCase):
    def test_each_changes_a_line_that_stands_once(self):
        for name in ("wrong.txt", "wrong_records.txt", "wrong_audits.txt"):
            edits = read_wrong(name)
            self.assertTrue(edits)
            for edit in edits:
                self.assertNotEqual(edit["old"], edit["new"], edit["wrong"])


class Wire(unittest.TestCase):
    """RFC 4251, section 5."""

    def test_numbers_and_strings(self):
        self.assertEqual(uint32(699921578), bytes.fromhex("29b7f4aa"))
        self.assertEqual(uint64(1), bytes(7) + b"\1")
        self.assertEqual(string(b"testing"), b"\0\0\0\7testing")

    def test_a_frame_is_taken_where_it_is_whole(self):
        frame = string(b"\x0b")
        heard = bytearray(frame + b"rest")
        self.assertEqual(take_frame(heard, 10), b"\x0b")
        self.assertEqual(heard, b"rest")
        for length in range(len(frame)):
            self.assertIsNone(take_frame(bytearray(frame[:length]), 10))

    def test_a_frame_of_a_bad_length_is_a_fault(self):
        for length in (0, 11):
            self.assertRaises(Fault, take_frame, bytearray(uint32(length)), 10)

    def test_patterns(self):
        self.assertTrue(matches(b"a.b.example.org", b"*.example.?rg"))
        self.assertFalse(matches(b"example.org", b"*.example.org"))


if __name__ == "__main__":
    unittest.main()
