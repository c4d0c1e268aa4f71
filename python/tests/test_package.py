"""The package as an engineer meets it: its names, its types, and what it installs."""

import importlib.metadata
import inspect
import os
import pathlib
import shutil
import subprocess
import sys
import tempfile
import unittest

import thrushscreen
from test_example import PROGRAM, TOP
from thrushscreen import _desk, _shared, shared, threads

TESTS = pathlib.Path(__file__).resolve().parent
PACKAGE = pathlib.Path(thrushscreen.__file__).resolve().parent

# What a type checker is to refuse, each beside what it is told of it.
WRONG = {
    'DataLoader[int, str](fetch).load("1")': "arg-type",
    'number: int = await DataLoader[int, str](fetch).load(1)': "assignment",
    "several: list[str] = await DataLoader[int, str](fetch).load_many([1])": "assignment",
    "DataLoader[int, str](fetch).prime(1, 1)": "arg-type",
    "held: asyncio.Future[str] = DataLoader[int, str](fetch).held(1)": "assignment",
    "other: asyncio.Future[int] = DataLoader[int, str](fetch).load(1)": "assignment",
    "keys: DataLoader[int, str] = DataLoader[int, str](fetch).clear(1).load(1)": "assignment",
    "DataLoader[str, str](fetch)": "arg-type",
    "DataLoader[int, str](fetch, get_cache_key=3)": "arg-type",
    "threads.DataLoader[int, str](fetch)": "arg-type",
    'threads.DataLoader[int, str](fetch_here).load("1")': "arg-type",
    "own: int = threads.DataLoader[int, str](fetch_here).load(1).result()": "assignment",
    "length: threads.Later[str] = threads.DataLoader[int, str](fetch_here).load(1).then(len)": "arg-type",
    "title: int = threads.run(page(1))": "assignment",
    "await threads.DataLoader[int, str](fetch_here).load(1)": "misc",
    "ThreadedDataLoader[int, str](fetch)": "arg-type",
    'ThreadedDataLoader[int, str](fetch_here).load("1")': "arg-type",
    "shown: int = ThreadedDataLoader[int, str](fetch_here).load(1)": "assignment",
    "later: Future[int] = ThreadedDataLoader[int, str](fetch_here).submit(1)": "assignment",
    'ThreadedDataLoader[int, str](fetch_here, delay="soon")': "arg-type",
    "ThreadedDataLoader[int, str](fetch_here).held(1)": "attr-defined",
}


def names_of(kind):
    return {name for name in dir(kind) if not name.startswith("_")}


class Names(unittest.TestCase):
    def test_the_public_names_are_those_of_the_documents(self):
        self.assertEqual(sorted(thrushscreen.__all__), ["Counters", "DataLoader", "LoaderFull"])
        self.assertEqual(sorted(threads.__all__), ["DataLoader", "Later", "run"])
        for kind in (thrushscreen.DataLoader, threads.DataLoader):
            self.assertEqual(
                names_of(kind),
                {"load", "load_many", "held", "prime", "clear", "clear_all", "counters"}
                | {"batch", "max_batch_size", "cache", "cache_map", "get_cache_key", "batch_schedule_fn", "name", "max_cells"},
            )
        self.assertEqual(names_of(threads.Later), {"done", "result", "exception", "then", "add_done_callback"})
        self.assertEqual(sorted(shared.__all__), ["Answer", "Entry", "Event", "History", "ThreadedDataLoader"])
        self.assertEqual(
            names_of(shared.ThreadedDataLoader),
            {"load", "submit", "load_many", "prime", "clear", "clear_all", "dispatch", "calling", "close"}
            | {"batch", "max_batch_size", "cache", "get_cache_key", "name", "max_cells", "max_calls", "delay", "executor"},
        )

    def test_options_have_the_names_of_the_ports(self):
        for kind in (thrushscreen.DataLoader, threads.DataLoader, shared.ThreadedDataLoader):
            options = list(inspect.signature(kind).parameters)
            self.assertEqual(options[:4], ["batch_load_fn", "batch", "max_batch_size", "cache"])
            self.assertIn("get_cache_key", options)

    def test_the_version_is_that_of_the_wheel_and_of_the_changes(self):
        self.assertEqual(importlib.metadata.version("thrushscreen"), thrushscreen.__version__)
        changes = (TESTS.parent / "CHANGELOG.md").read_text().splitlines()
        self.assertEqual([line for line in changes if line.startswith("## ")][0], f"## {thrushscreen.__version__}")

    def test_calls_of_the_extension_tell_what_they_take(self):
        for call in ("load", "held", "clear"):
            self.assertEqual(str(inspect.signature(getattr(thrushscreen.DataLoader, call))), "(self, key, /)")

    def test_the_class_for_threads_is_no_longer_than_it_may_be(self):
        self.assertLessEqual(len((PACKAGE / "threads.py").read_text().splitlines()), 250)


class Files(unittest.TestCase):
    def test_types_are_installed(self):
        for file in ("py.typed", "_desk.pyi", "_shared.pyi"):
            self.assertTrue((PACKAGE / file).exists(), file)

    def test_each_extension_shows_its_module_alone(self):
        for name, extension in (("_desk", _desk), ("_shared", _shared)):
            told = subprocess.run(["nm", "-D", "--defined-only", extension.__file__], check=True, capture_output=True, text=True).stdout
            self.assertEqual([line.split()[-1] for line in told.splitlines()], [f"PyInit_{name}"])

    def test_the_extensions_are_for_each_python(self):
        """`./test` installs the wheel that the first Python has built with each of them."""
        for extension in (_desk, _shared):
            self.assertTrue(extension.__file__.endswith(".abi3.so"), extension.__file__)
        self.assertRegex(importlib.metadata.distribution("thrushscreen").read_text("WHEEL"), "(?m)^Tag: cp310-abi3-linux_")

    def test_each_file_is_recorded(self):
        for file in importlib.metadata.files("thrushscreen"):
            self.assertTrue(file.locate().exists(), file)


# Types don't depend on the Python that runs the tests.
if os.path.realpath(sys.executable).startswith("/usr/bin/"):

    class Types(unittest.TestCase):
        def check(self, *files, strict=("--strict",)):
            with tempfile.TemporaryDirectory() as cache:
                shutil.copytree(PACKAGE, f"{cache}/source/thrushscreen", ignore=shutil.ignore_patterns("*.so", "__pycache__"))
                environment = {**os.environ, "MYPYPATH": f"{cache}/source", "PYTHONPATH": ""}
                command = ["/usr/bin/mypy", *strict, "--python-version", "3.10", "--cache-dir", cache, "--no-error-summary", *files]
                return subprocess.run(command, capture_output=True, text=True, env=environment, cwd=cache)

        def test_the_package_and_a_program_have_types(self):
            ran = self.check("-p", "thrushscreen")
            self.assertEqual((ran.stdout, ran.returncode), ("", 0), ran.stderr)
            ran = self.check(TESTS / "typed.py")
            self.assertEqual((ran.stdout, ran.returncode), ("", 0), ran.stderr)

        def test_the_programs_of_the_pages_need_no_more_types(self):
            for page in ("python/README.md", "docs/guide/python.md"):
                for program, _ in PROGRAM.findall((TOP / page).read_text()):
                    ran = self.check("-c", program, strict=())
                    self.assertEqual((ran.stdout, ran.returncode), ("", 0), program)

        def test_the_stubs_are_of_what_is_there(self):
            with tempfile.TemporaryDirectory() as cache:
                environment = {**os.environ, "MYPYPATH": str(PACKAGE.parent), "MYPY_CACHE_DIR": cache}
                command = [sys.executable, "-m", "mypy.stubtest", "--concise", "thrushscreen._desk", "thrushscreen._shared"]
                ran = subprocess.run(command, capture_output=True, text=True, env=environment, cwd=cache)
            self.assertEqual((ran.stdout, ran.returncode), ("", 0), ran.stderr)

        def test_wrong_programs_are_refused(self):
            with tempfile.TemporaryDirectory() as folder:
                program = pathlib.Path(folder, "wrong.py")
                lines = (TESTS / "typed.py").read_text().splitlines()
                head = lines[: lines.index("class Users(DataLoader[int, str]):")]
                program.write_text("\n".join([*head, "async def wrong() -> None:", *(f"    {line}" for line in WRONG)]))
                told = self.check(program).stdout.splitlines()
            self.assertEqual([line.rsplit("[", 1)[1].rstrip("]") for line in told if ": error:" in line], list(WRONG.values()), told)


if __name__ == "__main__":
    unittest.main()
