"""sag-plot as it is called: pictures, the page, and what it says where there is none."""

import hashlib
import re
import unittest
from html.parser import HTMLParser

from helpers import CERTIFICATE, REPORT, SCHEDULE, TWO_JOBS, folder_with, many_jobs, needs_matplotlib, started, tool

PNG = b"\x89PNG\r\n"


def files():
    return folder_with(
        jobs=TWO_JOBS, schedule=SCHEDULE, report=REPORT, scenario="h\n1,1,1,2\n2,1,0,3\n", cert=CERTIFICATE
    )


@needs_matplotlib
class Pictures(unittest.TestCase):
    def drawn(self, *words, given=b"", folder=None):
        done = tool("sag-plot", *words, folder=folder, given=given)
        self.assertEqual((done.returncode, done.stderr), (0, b""), words)
        return done.stdout

    def test_each_picture_by_name_and_over_pipes(self):
        calls = [
            (("schedule", "jobs.csv"), "schedule.csv", (b"release", b"deadline", b"2,1", b"no deadline miss")),
            (
                ("bounds", "jobs.csv"),
                "report.csv",
                (b"completion time", b"earliest release", b"1,1", b"all meet their deadlines"),
            ),
            (("levels",), "cert.txt", (b"states of the level", b"4 states, 4 edges")),
        ]
        with files() as folder:
            for words, file, texts in calls:
                self.drawn(*words, file, "-o", "a.svg", folder=folder)
                self.drawn(*words, file, "-o", "a.png", folder=folder)
                piped = self.drawn(*words, "-", folder=folder, given=(folder / file).read_bytes())
                self.assertEqual((folder / "a.svg").read_bytes(), piped)
                self.assertTrue((folder / "a.png").read_bytes().startswith(PNG))
                self.assertEqual([text for text in texts if text not in piped], [])

    def test_as_a_program(self):
        with files() as folder:
            done = started("sag-plot", "levels", "-", "--format", "png", folder=folder, given=CERTIFICATE.encode())
            self.assertEqual((done.returncode, done.stderr), (0, b""))
            self.assertTrue(done.stdout.startswith(PNG))
            done = started("sag-plot", "levels", "jobs.csv", folder=folder)
            self.assertEqual(
                (done.returncode, done.stdout, done.stderr),
                (2, b"", b"sag-plot: certificate line 1 is not what it should be\n"),
            )

    def test_exact_releases(self):
        with files() as folder:
            self.assertIn(b"release jitter", self.drawn("schedule", "jobs.csv", "schedule.csv", folder=folder))
            drawn = self.drawn("schedule", "jobs.csv", "schedule.csv", "--scenario", "scenario.csv", folder=folder)
            self.assertNotIn(b"release jitter", drawn)

    def test_five_hundred_jobs(self):
        jobs, schedule, report = many_jobs(500)
        with folder_with(jobs=jobs, schedule=schedule, report=report) as folder:
            drawn = self.drawn("schedule", "jobs.csv", "schedule.csv", folder=folder).decode()
            self.assertIn("500 jobs, 2 cores, 30 deadline misses", drawn)
            # each job has its IDs in the picture
            labels = {f"{1 + place % 5},{1 + place // 5}" for place in range(500)}
            self.assertEqual(labels - set(re.findall(r">(\d+,\d+)<", drawn)), set())
            drawn = self.drawn("bounds", "jobs.csv", "report.csv", folder=folder).decode()
            self.assertIn("500 jobs, 30 may miss the deadline", drawn)
            shown = re.findall(r">(\d+,\d+)<", drawn)
            self.assertEqual((labels - set(shown), shown[0]), (set(), "4,1"))

    def test_completion_or_response_times(self):
        jobs, _, report = many_jobs(40)
        spread = [
            [
                *row[:2],
                *(str(10_000 * place + int(field) % 1000) for field in row[2:4]),
                *row[4:6],
                str(10_000 * place + 40),
                row[7],
            ]
            for place, row in enumerate(line.split(",") for line in jobs.splitlines()[1:])
        ]
        far = "h\n" + "".join(",".join(row) + "\n" for row in spread)
        told = "h\n" + "".join(f"{row[0]},{row[1]},{int(row[2]) + 2},{int(row[2]) + 12},2,12\n" for row in spread)
        with folder_with(jobs=jobs, report=report, far=far, told=told) as folder:
            rows = [
                (("jobs.csv", "report.csv"), b"completion time"),
                (("far.csv", "told.csv"), b"response time, from the earliest release"),
                (("jobs.csv", "report.csv", "--times", "response"), b"response time"),
                (("far.csv", "told.csv", "--times", "completion"), b"completion time"),
            ]
            self.assertEqual(
                [said in self.drawn("bounds", *words, folder=folder) for words, said in rows], [True] * len(rows)
            )

    def test_windows(self):
        jobs, schedule, report = many_jobs(100)
        with folder_with(jobs=jobs, schedule=schedule, report=report, cert=CERTIFICATE) as folder:
            rows = [
                (("schedule", "jobs.csv", "schedule.csv", "--from", "100", "--to", "140"), b"5 of 100 jobs"),
                (("schedule", "jobs.csv", "schedule.csv", "--jobs", "2:1-3,4:1"), b"4 of 100 jobs"),
                (("bounds", "jobs.csv", "report.csv", "--jobs", "1"), b": 20 jobs"),
                (("levels", "cert.txt", "--from", "2"), b"most states at level 2: 1"),
            ]
            self.assertEqual([said in self.drawn(*words, folder=folder) for words, said in rows], [True] * len(rows))

    def test_a_graph_beyond_its_budget(self):
        begun = "".join(CERTIFICATE.splitlines(keepends=True)[:8])
        self.assertIn(b"no end: stops behind level 1", self.drawn("levels", "-", given=begun.encode()))

    def test_one_line_and_no_picture(self):
        rows = [
            (("schedule", "jobs.csv", "report.csv"), "schedule row 1 has 6 fields"),
            (("schedule", "cert.txt", "schedule.csv"), "jobs row 1 has 1 fields"),
            (("schedule", "jobs.csv", "schedule.csv", "--jobs", "9"), "no job of the schedule is in the window"),
            (("schedule", "jobs.csv", "schedule.csv", "--from", "7", "--to", "7"), "the window from 7 to 7 is empty"),
            (("bounds", "jobs.csv", "schedule.csv"), "report row 1 has 5 fields"),
            (("levels", "jobs.csv"), "certificate line 1 is not what it should be"),
            (("levels", "none.txt"), "none.txt: No such file or directory"),
            (("page", "jobs.csv", "jobs.csv"), "certificate line 1 is not what it should be"),
            (("bounds", "-", "-"), "the standard input can be one file only"),
        ]
        with files() as folder:
            for words, said in rows:
                done = tool("sag-plot", *words, "-o", "a.svg", folder=folder, given=b"")
                self.assertEqual((done.returncode, done.stdout, done.stderr.decode()), (2, b"", f"sag-plot: {said}\n"))
                self.assertFalse((folder / "a.svg").exists())
            done = tool("sag-plot", "levels", "cert.txt", "-o", "a.pdf", folder=folder)
            self.assertEqual(
                (done.returncode, done.stderr), (2, b"sag-plot: a.pdf: a picture's name ends in .svg or .png\n")
            )


class Page(HTMLParser):
    """What the tests look at: the rows of the table, the pictures, and names of things outside."""

    def __init__(self, text):
        super().__init__()
        self.rows, self.pictures, self.outside, self.cell, self.ids = [], 0, [], False, []
        self.feed(text)

    def handle_starttag(self, tag, attrs):
        if tag == "tr":
            self.rows.append([])
        self.cell = tag == "td"
        self.pictures += tag == "svg"
        self.ids += [value for name, value in attrs if name == "id"]
        self.outside += [
            value for name, value in attrs if name in ("src", "href", "xlink:href") and not value.startswith("#")
        ]

    def handle_data(self, data):
        if self.cell:
            self.rows[-1].append(data)

    def handle_endtag(self, tag):
        self.cell = False


@needs_matplotlib
class Pages(unittest.TestCase):
    def page(self, folder, *words):
        done = tool("sag-plot", "page", *words, folder=folder)
        self.assertEqual((done.returncode, done.stderr), (0, b""))
        return done.stdout.decode()

    def test_what_it_holds(self):
        late = TWO_JOBS.replace("1,1,0,1,1,2,5,1", "1,1,0,1,1,2,4,1")
        missed = CERTIFICATE.replace("job 0 1 5 ok", "job 0 1 5 miss").replace("verdict ok", "verdict miss")
        with folder_with(jobs=late, cert=missed) as folder:
            text = self.page(folder, "jobs.csv", "cert.txt", "--prec", "a b.csv", "--title", "Brakes & lights")
        page = Page(text)
        self.assertEqual([row[:2] + row[-1:] for row in page.rows[1:]], [["1", "1", "miss"], ["2", "1", "ok"]])
        self.assertEqual((page.pictures, page.outside, len(page.ids)), (2, [], len(set(page.ids))))
        for said in (
            "1 job may miss the deadline",
            "Brakes &amp; lights",
            "sag check jobs.csv cert.txt --prec &#x27;a b.csv&#x27;",
            "4 states and 4 edges on 3 levels",
            hashlib.sha256(late.encode()).hexdigest(),
            hashlib.sha256(missed.encode()).hexdigest(),
        ):
            self.assertIn(said, text)
        self.assertNotIn("http", text)

    def test_a_yes_on_two_cores(self):
        two = CERTIFICATE.replace("sagcert 2 2 1", "sagcert 2 2 2")
        with folder_with(jobs=TWO_JOBS, cert=two) as folder:
            text = self.page(folder, "jobs.csv", "cert.txt")
        for said in ("All jobs meet their deadlines", "and by its deadline", "sag check jobs.csv cert.txt --cores 2"):
            self.assertIn(said, text)

    def test_no_page_of_other_jobs(self):
        with folder_with(jobs=TWO_JOBS + "3,1,0,0,1,1,9,1\n", cert=CERTIFICATE) as folder:
            done = tool("sag-plot", "page", "jobs.csv", "cert.txt", "-o", "a.html", folder=folder)
            self.assertEqual(
                (done.returncode, done.stderr), (2, b"sag-plot: certificate is of 2 jobs, and the job file has 3\n")
            )
            self.assertFalse((folder / "a.html").exists())


if __name__ == "__main__":
    unittest.main()
