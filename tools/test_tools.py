"""Tests of ./scr and of the tools beside it. tools/check.py runs them; by themselves: python3 -m unittest, in tools/."""
import os
import shutil
import subprocess
import sys
import tempfile
import unittest
import xml.etree.ElementTree as tree
from pathlib import Path

import explain
import history
import timeline

TOP = Path(__file__).resolve().parent.parent
SVG = "{http://www.w3.org/2000/svg}"

# A line of each kind that no example has yet.
KINDS = """run 2 at 1,0
emptied 2
found 1.1:0+1 2.1:- | 1.1:flushed 2.1:failed
discarding 1.1
discarded 1.1
evicting 2.1
evicted 2.1
fetching 1.1
fetched 1.1
flushing 1.1
indexing 1.1
flushed 1.1
givenup 1.1 full 32 9 10
failing 1.1
failed 1.1
local 3 2 write = 7 text = = ok
reply 0 3 bytes -
stop device 1 2
lost 1
scavenging 3.2
scavenged 3.2
scavenged none
scavenge cut
index list = 3.2/a/flushed/both* 1.1/b/failed/ckpt
index drop 1 = noentry
halt reason x = full 32 1 2
stop command
run 3 at 0
stop script
""".splitlines(keepends=True)


def told(name):
    return (TOP / f"examples/{name}.history").read_text()


def named(*names):
    return sorted(path.stem for path in (TOP / "examples").glob("*.scr")) if not names else names


def tool(name, text, *words):
    done = subprocess.run([sys.executable, "-B", str(TOP / "tools" / name), *words], input=text.encode(), capture_output=True)
    return done.returncode, done.stdout.decode(), done.stderr.decode()


class Lines(unittest.TestCase):
    def test_each_kind_of_line_is_read_as_that_kind(self):
        for line in KINDS:
            kind = history.event_of(line[:-1]).kind
            self.assertTrue(line.startswith(kind) or (kind == "scavenged" and line.startswith("scavenge ")), line)

    def test_what_is_no_history_is_refused_with_its_line(self):
        wrong = ["run 01 at 0", "run 1 at", "found", "call 0 1 fly", "reply 0 1 maybe", "decided read ok", "stop", "Run 1 at 0", "", "local 0 2 read f 0 3 = bytes ABCD"]
        for line in wrong:
            with self.assertRaisesRegex(history.NoHistory, "line 2 "):
                history.read(f"found |\n{line}\nstop ended\n")
        with self.assertRaisesRegex(history.NoHistory, "line 2 has no line feed"):
            history.read("found |\nstop ended")

    def test_the_last_equals_sign_parts_step_and_answer(self):
        event = history.event_of("local 0 2 write = 7 text = = full 1 2 3")
        self.assertEqual((event.fields["step"], event.fields["answer"]), ("write = 7 text =", "full 1 2 3"))


class Pictures(unittest.TestCase):
    def picture(self, text):
        events = history.read(text)
        return events, tree.fromstring(timeline.Picture(events).text())

    def check(self, text):
        events, root = self.picture(text)
        marks = [it for it in root.iter(f"{SVG}g") if it.get("class") == "event"]
        self.assertEqual([it.find(f"{SVG}title").text for it in marks], [event.line for event in events])
        self.assertEqual([it.get("id") for it in marks], [f"e{at + 1}" for at in range(len(events))])
        labels = [it.text for it in root.findall(f"{SVG}text")]
        ranks = {f"rank {event.fields['rank']}" for event in events if "rank" in event.fields}
        sets = {f"dataset {which}" for event in events for which in timeline.datasets_of(event)}
        self.assertEqual({it for it in labels if it.startswith(("rank ", "dataset "))}, ranks | sets)
        for event, mark in zip(events, marks):
            rules = [it for it in mark.findall(f"{SVG}line") if it.get("stroke") == timeline.RED]
            cut = event.kind == "lost" or (event.kind == "stop" and event.fields["cause"] != "ended")
            refused = event.kind == "decided" and history.is_refused(event.fields["answer"])
            self.assertEqual(len(rules), int(cut or refused), event.line)

    def test_each_event_of_an_example_has_one_mark(self):
        for name in named():
            with self.subTest(name):
                self.check(told(name))

    def test_so_have_events_that_no_example_has(self):
        self.check("".join(KINDS))

    def test_a_wait_is_red_where_it_is_refused(self):
        _, root = self.picture(told("mismatch"))
        bars = [it.get("fill") for it in root.findall(f"{SVG}rect") if it.get("height") == "8"]
        self.assertEqual((bars.count(timeline.RED), bars.count(timeline.GREEN)), (3, 3))

    def test_no_picture_of_what_is_no_history(self):
        status, out, err = tool("timeline.py", "refused line 0 reason 15\n")
        self.assertEqual((status, out), (65, ""))
        self.assertIn("line 1", err)
        self.assertEqual(tool("timeline.py", "", "nofile")[0], 64)


class Sentences(unittest.TestCase):
    def test_each_line_has_its_sentence(self):
        for text in [*map(told, named()), "".join(KINDS)]:
            status, out, _ = tool("explain.py", text)
            self.assertEqual((status, out.count("\n")), (0, text.count("\n")))
            self.assertNotRegex(out, r"[{}]|None")

    def test_each_reason_has_its_sentence_and_quotes_its_line(self):
        with tempfile.NamedTemporaryFile("w", suffix=".scr") as script:
            script.write("site 1 1 0\nset scheme single\nfly\n")
            script.flush()
            seen = set()
            for reason in range(1, 15):
                status, out, _ = tool("explain.py", f"refused line 3 reason {reason}\n", script.name)
                self.assertEqual(status, 2)
                self.assertIn("line 3: fly", out)
                seen.add(out)
        self.assertEqual(len(seen), 14)
        self.assertIn(15, explain.REASONS)

    def test_a_script_that_is_not_run_yet_is_told_line_by_line(self):
        script = "# a comment\nsite 2 1 1\nset scheme partner\nset cache 1\nrun 1,0\nrank all start a both\nrank 0 complete valid\nrank 0-1 start b ckpt\nrank 1 restarted invalid\nstop 1 after 10\nlose 1\n"
        self.assertEqual([at for at, _ in explain.unbuilt(script.split("\n"))], [3, 5, 6, 8, 9, 10, 11])

    def test_what_is_neither_is_refused(self):
        self.assertEqual(tool("explain.py", "refused line 1 reason 99\n")[0], 65)
        self.assertEqual(tool("explain.py", "stop ended", )[0], 65)
        self.assertEqual(tool("explain.py", "", "no/such/file")[0], 64)


# A stand-in for the kit. Its programs print PRINTS and end with ENDS; where FAILS stands it comes to no program.
KIT = """#!/bin/sh
echo "$1" >>"$TOP/calls"
case $1 in
  version) echo a kit; exit ;;
  ci) mkdir -p crates/scr_replay/out; echo >crates/scr_replay/out/scr_replay; chmod +x crates/scr_replay/out/scr_replay
      [ -e "$TOP/FAILS" ] && { echo 1 passed, 1 failed; exit 3; }
      echo 2 passed, 0 failed; exit ;;
  try) cat >/dev/null; [ -e "$TOP/FAILS" ] && { echo no proof >&2; exit 2; }
       cat "$TOP/PRINTS"; echo "run=ended status=$(cat "$TOP/ENDS")" >&2; exit "$(cat "$TOP/ENDS")" ;;
  run) [ -e "$TOP/FAILS" ] && { echo an open goal >&2; exit 1; }
       mkdir -p out; printf '#!/bin/sh\\ncat >/dev/null; cat "$TOP/PRINTS"; exit "$(cat "$TOP/ENDS")"\\n' >out/scr_replay
       chmod +x out/scr_replay; echo "== scr_replay" >&2; echo "rt: running out/scr_replay; to give it" >&2; exit 2 ;;
esac
"""


def scr(*words, top=TOP, **env):
    done = subprocess.run([str(top / "scr"), *words], capture_output=True, text=True, env={**os.environ, **env}, stdin=subprocess.DEVNULL)
    return done.returncode, done.stdout, done.stderr


class Driver(unittest.TestCase):
    """./scr over a stand-in for the kit."""

    def setUp(self):
        room = tempfile.TemporaryDirectory()
        self.addCleanup(room.cleanup)
        self.top = Path(room.name)
        for folder in [".ci", "tools", "bin", "crates/scr_replay/src"]:
            (self.top / folder).mkdir(parents=True)
        for name in ["scr", ".ci/run", "tools/kept.sh", "tools/history.py", "tools/explain.py", "tools/timeline.py"]:
            shutil.copy(TOP / name, self.top / name)
        (self.top / "crates.txt").write_text("scr_replay:\n")
        (self.top / "crates/scr_replay/src/main.rt").write_text("\n")
        (self.top / "bin/rt").write_text(KIT)
        (self.top / "bin/rt").chmod(0o755)
        self.prints(told("first"), 0)

    def prints(self, text, status):
        (self.top / "PRINTS").write_text(text)
        (self.top / "ENDS").write_text(str(status))

    def environment(self):
        return {**os.environ, "TOP": str(self.top), "PATH": f"{self.top}/bin:{os.environ['PATH']}"}

    def scr(self, word):
        (self.top / "calls").write_text("")
        done = scr(word, str(TOP / "examples/first.scr"), top=self.top, **self.environment())
        calls = [it for it in (self.top / "calls").read_text().split() if it != "version"]
        return (*done, calls)

    def test_try_gives_the_programs_status_and_says_that_nothing_is_proved(self):
        for text, status in [(told("first"), 0), ("refused line 0 reason 15\n", 2), ("run 1 at 0\n", 5)]:
            self.prints(text, status)
            self.assertEqual(self.scr("try")[:2], (status, text))
        self.assertIn("nothing is proved", self.scr("try")[2])
        (self.top / "FAILS").touch()
        self.assertEqual(self.scr("try")[0], 70)

    def test_replay_proves_once_and_again_after_an_edit(self):
        (self.top / "FAILS").touch()
        status, out, err, _ = self.scr("replay")
        self.assertEqual((status, out), (70, ""))
        self.assertIn("an open goal", err)
        (self.top / "FAILS").unlink()
        status, out, err, calls = self.scr("replay")
        self.assertEqual((status, out, calls), (0, told("first"), ["run"]))
        self.assertIn("proved first", err)
        self.assertEqual(self.scr("replay"), (0, told("first"), "", []))
        (self.top / "crates/scr_replay/src/main.rt").write_text("an edit\n")
        self.assertEqual(self.scr("replay")[3], ["run"])

    def test_explain_and_picture_take_the_kept_program(self):
        self.assertEqual(self.scr("explain")[3], ["try"])
        self.scr("replay")
        status, out, _, calls = self.scr("explain")
        self.assertEqual((status, out.count("\n"), calls), (0, 29, []))
        status, out, _, calls = self.scr("picture")
        self.assertEqual((status, out[:5], calls), (0, "<svg ", []))

    def test_a_refusal_is_explained_and_has_no_picture(self):
        self.prints("refused line 3 reason 6\n", 2)
        status, out, _, _ = self.scr("explain")
        self.assertEqual((status, "line 3: run 0" in out), (2, True))
        status, out, err, _ = self.scr("picture")
        self.assertEqual((status, out, "line 3: run 0" in err), (2, "", True))

    def test_what_is_no_history_is_told(self):
        self.prints("run 1 at 0", 5)
        self.assertEqual(self.scr("picture")[:2], (65, ""))
        self.assertEqual(self.scr("explain")[:2], (65, ""))


    def gate(self, check, bench=0):
        (self.top / "tools/check.py").write_text(f"print('house: checked')\nraise SystemExit({check})\n")
        run = self.top / "bench/run"
        run.parent.mkdir(exist_ok=True)
        run.write_text(f"#!/bin/sh\necho bench: compared\nexit {bench}\n")
        run.chmod(0o755)
        done = subprocess.run([str(self.top / ".ci/run")], capture_output=True, text=True, env=self.environment())
        return done.returncode, done.stdout

    def test_the_gate_ends_with_the_status_of_rt_ci_and_else_with_that_of_the_own_checks(self):
        passed = "2 passed, 0 failed\nbench: compared\nhouse: checked\n"
        self.assertEqual(self.gate(0), (0, passed))
        self.assertEqual(self.gate(1), (1, passed))
        self.assertEqual(self.gate(0, bench=1), (1, passed))
        self.assertEqual(self.scr("replay")[3], [])
        (self.top / "FAILS").touch()
        self.assertEqual(self.gate(0), (3, "1 passed, 1 failed\n"))


class Calls(unittest.TestCase):
    """./scr where it doesn't come to a run."""

    def test_a_wrong_call_prints_the_usage(self):
        for words in [[], ["fly"], ["try"], ["try", "a", "b"], ["replay"], ["doctor", "now"]]:
            status, out, err = scr(*words)
            self.assertEqual((status, out), (64, ""), words)
            self.assertTrue(err.startswith("usage: "), words)
        self.assertEqual(scr("help")[0], 0)

    def test_a_file_that_cannot_be_read_is_told(self):
        for word in ["try", "replay", "explain", "picture"]:
            for name in ["no/such/file", str(TOP)]:
                status, out, err = scr(word, name)
                self.assertEqual((status, out, err.count("\n")), (66, "", 1), (word, name))
                self.assertTrue(err.startswith("scr: ") and name in err)

    def test_a_missing_kit_is_told(self):
        with tempfile.TemporaryDirectory() as bin:
            for name in ["bash", "dirname", "realpath", "mktemp", "rm", "env"]:
                os.symlink(subprocess.check_output(["which", name], text=True).strip(), f"{bin}/{name}")
            status, _, err = scr("try", str(TOP / "examples/first.scr"), PATH=bin)
            self.assertEqual((status, "python3 is missing" in err), (72, True), err)
            os.symlink(sys.executable, f"{bin}/python3")
            status, _, err = scr("try", str(TOP / "examples/first.scr"), PATH=bin)
            self.assertEqual((status, "kit is missing" in err), (69, True), err)


if __name__ == "__main__":
    unittest.main()
