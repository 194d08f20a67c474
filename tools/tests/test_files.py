"""The files that the tools read: what they come to, and what is refused."""

import unittest

from helpers import CERTIFICATE, JOB_HEADING, REPORT, SCHEDULE, TWO_JOBS, stream
from sagtools.certificate import claimed_spans, read_certificate
from sagtools.fault import Fault
from sagtools.tables import read_jobs, read_releases, read_report, read_schedule
from sagtools.window import Window, job_ranges


def refusal(reader, text, *rest):
    try:
        reader(stream(text), *rest)
    except Fault as fault:
        return str(fault)
    return None


class Tables(unittest.TestCase):
    def setUp(self):
        self.jobs = read_jobs(stream(TWO_JOBS))

    def test_jobs(self):
        self.assertEqual(
            [(job.key, job.arrival_max, job.deadline, job.label) for job in self.jobs],
            [((1, 1), 1, 5, "1,1"), ((2, 1), 0, 9, "2,1")],
        )

    def test_csv_as_sag_reads_it(self):
        rows = [
            "\ufeffany heading\n1,1,0,1,1,2,5,1\n",
            'h\r\n\r\n"1","1",0 ,\t1,01,"2"\t,5,1\r\n',
            "h\r1,1,0,1,1,2,5,1",
        ]
        for text in rows:
            self.assertEqual(read_jobs(stream(text)), self.jobs[:1])

    def test_refused_jobs(self):
        rows = [
            ("", "jobs no heading"),
            ("\n\n", "jobs no heading"),
            ("h\n1,2\n", "jobs row 1 has 2 fields"),
            ("h\n1,1,0,1,1,2,5,x\n", "jobs row 1 column 8 is no number"),
            ("h\n1,1,0,1,1,2,-5,1\n", "jobs row 1 column 7 is no number"),
            ("h\n1,1,0,1,1,2,5,\n", "jobs row 1 column 8 is no number"),
            ("h\n1,1,0,1,1,2,18446744073709551616,1\n", "jobs row 1 column 7 is above 18446744073709551615"),
            ("h\n1,1,2,1,1,2,5,1\n", "jobs row 1 column 3 is above the next"),
            ("h\n1,1,0,1,3,2,5,1\n", "jobs row 1 column 5 is above the next"),
            ("h\n1,1,0,1,0,2,5,1\n", "jobs row 1 column 5 is 0"),
            (TWO_JOBS + "1,1,0,1,1,2,5,1\n", "jobs row 3 repeats row 1"),
        ]
        self.assertEqual([refusal(read_jobs, text) for text, _ in rows], [said for _, said in rows])

    def test_schedule(self):
        blocks = read_schedule(stream(SCHEDULE), self.jobs)
        self.assertEqual(
            [(block.job.key, block.start, block.finish, block.core, block.is_late) for block in blocks],
            [((2, 1), 0, 3, 0, False), ((1, 1), 3, 5, 0, False)],
        )

    def test_refused_schedules(self):
        rows = [
            (TWO_JOBS, "schedule row 1 has 8 fields"),
            ("h\n7,1,0,3,0\n", "schedule row 1 column 1 names no job"),
            ("h\n2,1,0,3,0\n", "schedule has no row for job 1 1"),
            ("h\n2,1,3,3,0\n", "schedule row 1 column 4 is not above column 3"),
            ("h\n2,1,0,3,0\n2,1,0,3,0\n", "schedule row 2 repeats row 1"),
        ]
        self.assertEqual([refusal(read_schedule, text, self.jobs) for text, _ in rows], [said for _, said in rows])

    def test_scenario(self):
        self.assertEqual(read_releases(stream("h\n2,1,0,3\n1,1,1,2\n"), self.jobs), {(1, 1): 1, (2, 1): 0})

    def test_report(self):
        spans = read_report(stream(REPORT), self.jobs)
        self.assertEqual([(span.best, span.worst, span.may_miss) for span in spans], [(1, 5, False), (2, 5, False)])

    def test_refused_reports(self):
        rows = [
            ("Task ID,WCRT\n1,5\n", "report row 1 has 2 fields"),
            ("h\n1,1,6,5,6,5\n", "report row 1 column 3 is above the next"),
            ("h\n1,1,1,5,1,4\n", "report row 1 does not fit the job's Arrival min"),
        ]
        self.assertEqual([refusal(read_report, text, self.jobs) for text, _ in rows], [said for _, said in rows])


class Certificates(unittest.TestCase):
    def test_summary(self):
        summary = read_certificate(stream(CERTIFICATE))
        self.assertEqual([(level.states, level.edges) for level in summary.levels], [(1, 0), (2, 2), (1, 2)])
        self.assertEqual(
            (summary.jobs, summary.cores, summary.states, summary.edges, summary.verdict), (2, 1, 4, 4, True)
        )
        spans = claimed_spans(summary, read_jobs(stream(TWO_JOBS)))
        self.assertEqual([(span.best, span.worst) for span in spans], [(1, 5), (2, 5)])

    def test_no_jobs(self):
        summary = read_certificate(stream("sagcert 2 0 1\nlevel 0 1\nroot 0:0\nverdict ok\nend\n"))
        self.assertEqual((summary.states, summary.verdict), (1, True))

    def test_old_version(self):
        self.assertEqual(
            read_certificate(stream(CERTIFICATE.replace("sagcert 2", "sagcert 1").replace(" | |", " |"))).states, 4
        )

    def test_ended_by_the_budget(self):
        lines = CERTIFICATE.splitlines(keepends=True)
        begun = "".join(lines[:8])
        self.assertEqual(refusal(read_certificate, begun), "certificate stops behind line 8, before its end")
        summary = read_certificate(stream(begun), whole=False)
        self.assertEqual((len(summary.levels), summary.verdict), (2, None))
        self.assertEqual(refusal(read_certificate, "".join(lines[:5]), False), "certificate stops behind line 5")

    def test_each_line_where_it_is_due(self):
        lines = CERTIFICATE.splitlines(keepends=True)
        for place in range(len(lines)):
            self.assertIsNotNone(refusal(read_certificate, "".join(lines[:place] + ["x\n"] + lines[place:])), place)
        self.assertIsNotNone(refusal(read_certificate, CERTIFICATE + "end\n"))
        self.assertIsNotNone(refusal(read_certificate, CERTIFICATE[:-1]))
        self.assertEqual(refusal(read_certificate, TWO_JOBS), "certificate line 1 is not what it should be")

    def test_of_other_jobs(self):
        summary = read_certificate(stream(CERTIFICATE))
        rows = [
            (TWO_JOBS + "3,1,0,0,1,1,9,1\n", "certificate is of 2 jobs, and the job file has 3"),
            (JOB_HEADING + "1,1,0,1,1,2,4,1\n2,1,0,0,2,3,9,2\n", "certificate does not fit the job file at job 0"),
        ]
        old = read_certificate(stream(CERTIFICATE.replace("sagcert 2", "sagcert 1")))
        with self.assertRaises(Fault) as caught:
            claimed_spans(old, read_jobs(stream(TWO_JOBS)))
        self.assertIn("version 1", str(caught.exception))
        for text, said in rows:
            with self.assertRaises(Fault) as caught:
                claimed_spans(summary, read_jobs(stream(text)))
            self.assertEqual(str(caught.exception), said)


class Windows(unittest.TestCase):
    def test_jobs_by_their_ids(self):
        jobs = read_jobs(
            stream(JOB_HEADING + "".join(f"{task},{job},0,0,1,1,9,1\n" for task in (1, 2, 3) for job in (1, 2, 3)))
        )
        window = Window(ranges=job_ranges("1,2:2,3:2-3"))
        self.assertEqual([job.label for job in jobs if window.has_job(job)], ["1,1", "1,2", "1,3", "2,2", "3,2", "3,3"])

    def test_times(self):
        rows = [((None, None), True), ((5, 9), True), ((6, 9), False), ((0, 2), True), ((0, 1), False)]
        self.assertEqual([Window(*bounds).has_time(2, 5) for bounds, _ in rows], [seen for _, seen in rows])


if __name__ == "__main__":
    unittest.main()
