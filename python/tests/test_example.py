"""The examples of the documents print what is beside them."""

import pathlib
import re
import subprocess
import sys
import unittest

TOP = pathlib.Path(__file__).resolve().parents[2]

# A program of a page with what it prints.
PROGRAM = re.compile(r"^```python\n((?:(?!```).*\n)+)```\n\n```text\n((?:.+\n)+)```$", re.MULTILINE)


class Examples(unittest.TestCase):
    def check(self, program, output):
        ran = subprocess.run([sys.executable, *program], capture_output=True, text=True)
        self.assertEqual((ran.stdout, ran.returncode), (output, 0), ran.stderr)

    def test_the_servers(self):
        for server in ("server", "threads_server", "pool_server"):
            with self.subTest(server=server):
                self.check([TOP / "examples" / f"{server}.py"], (TOP / "examples" / f"{server}.out").read_text())

    def test_a_page_that_is_not_there_is_a_404(self):
        program = """
import tempfile, blog, threads_server
with tempfile.NamedTemporaryFile() as file:
    blog.fill(file.name)
    application = threads_server.Application(file.name)
    for path in ("/post/7", "/names/1", "/names", "/post", "/post/7/1", "/post/1000", "/user/" + "9" * 5000, "/"):
        application({"PATH_INFO": path}, lambda status, headers: print(status.split()[0], end=" "))
"""
        ran = subprocess.run([sys.executable, "-c", program], capture_output=True, text=True, cwd=TOP / "examples")
        self.assertEqual((ran.stdout, ran.returncode), ("200 404 200 404 404 404 404 404 ", 0), ran.stderr)

    def test_the_programs_of_the_pages(self):
        for page, count in (("python/README.md", 3), ("docs/guide/python.md", 1)):
            programs = PROGRAM.findall((TOP / page).read_text())
            self.assertEqual(len(programs), count)
            for program, output in programs:
                self.check(["-c", program], output)


if __name__ == "__main__":
    unittest.main()
