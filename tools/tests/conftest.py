"""What the tests share: the kept files, copies of them with a line changed, and runs of them."""
import shutil
from pathlib import Path
from typing import Callable

import pytest

from modelnet_tools.capture import read_trace
from modelnet_tools.progress import Progress
from modelnet_tools.run import Run, RunFiles, load_run

DATA = Path(__file__).parent / "data"
QUIET = Progress("test", quiet=True)


@pytest.fixture
def copy(tmp_path: Path) -> Path:
    """A folder with copies of all kept files."""
    return Path(shutil.copytree(DATA, tmp_path / "data"))


def change_line(file: Path, line: int, text: str) -> None:
    """Line `line`, from 1, in other words; a line past the end is added."""
    lines = file.read_text().splitlines()
    lines[line - 1 : line] = [text]
    file.write_text("".join(each + "\n" for each in lines))


def load(name: str, data: Path = DATA) -> Run:
    return load_run(name, RunFiles.in_folder(str(data / name)), read_trace(str(data / "in.pcap"), QUIET), QUIET)


@pytest.fixture(scope="session")
def run_a() -> Run:
    return load("a")


@pytest.fixture(scope="session")
def run_b() -> Run:
    return load("b")


def refused(tool: Callable[[list[str]], int], words: list[str], capsys: pytest.CaptureFixture) -> str:
    """The last line that a tool says as it refuses its input."""
    assert tool(words) == 2
    return capsys.readouterr().err.splitlines()[-1]
