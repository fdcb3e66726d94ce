"""Repositories for the tests of `graphql-check`, and calls of it."""

import contextlib
import io
import os
import shutil
import subprocess
import sys
from dataclasses import dataclass
from pathlib import Path
from typing import Dict, List, Mapping, Union

import pytest

TOP = Path(__file__).resolve().parents[2]
sys.path.insert(0, str(TOP / "python"))

from graphql_checked.command.main import main  # noqa: E402

SHOP = (TOP / "examples/shop/schema.graphql").read_text()


@dataclass
class Done:
    """How a call ended."""

    status: int
    out: str
    told: str

    @property
    def lines(self) -> List[str]:
        """What it printed."""
        return self.out.splitlines()


class Repository:
    """A folder of files, in which commands run."""

    def __init__(self, folder: Path) -> None:
        self.folder = folder
        self.environment = {**os.environ, "PYTHONPATH": str(TOP / "python"), "PYTHONDONTWRITEBYTECODE": "1", "LC_ALL": "C.UTF-8"}

    def write(self, files: Mapping[str, Union[str, bytes]]) -> "Repository":
        """Writes files."""
        for name, text in files.items():
            path = self.folder / name
            path.parent.mkdir(parents=True, exist_ok=True)
            path.write_bytes(text if isinstance(text, bytes) else text.encode())
        return self

    def run(self, *words: str, below: str = ".") -> Done:
        """Calls `graphql-check` in this process."""
        out, told, before = io.StringIO(), io.StringIO(), os.getcwd()
        os.chdir(self.folder / below)
        try:
            with contextlib.redirect_stdout(out), contextlib.redirect_stderr(told):
                status = main(list(words))
        except SystemExit as end:
            status = int(end.code or 0)
        finally:
            os.chdir(before)
        return Done(status, out.getvalue(), told.getvalue())

    def program(self, *words: str) -> Done:
        """Calls `graphql-check` in a process of its own."""
        return self.command([sys.executable, "-m", "graphql_checked", *words])

    def command(self, words: List[str], below: str = ".") -> Done:
        """Runs a command."""
        done = subprocess.run(words, cwd=self.folder / below, env=self.environment, stdin=subprocess.DEVNULL, capture_output=True, timeout=120, check=False)
        return Done(done.returncode, done.stdout.decode(), done.stderr.decode())

    def short(self, *words: str) -> List[str]:
        """What `check --format short` prints, without messages: place and rule."""
        return [line.split("]: ")[0] + "]" for line in self.run("check", "--format", "short", *words).lines]


@dataclass
class Installed:
    """The packages, and an environment into which the wheel is not installed yet."""

    wheel: Path
    deb: Path
    environment: Path


@pytest.fixture(scope="session")
def packages(tmp_path_factory: pytest.TempPathFactory) -> Installed:
    """What scripts/package makes, and an empty environment of Python with Debian's packages."""
    folder = tmp_path_factory.mktemp("packages")
    made = os.path.dirname(os.environ.get("GRAPHQL_CHECKED_LIBRARY", "")) or str(TOP / ".built/c")
    subprocess.run(["python3", str(TOP / "scripts/package"), "--from", made, "--into", str(folder)], check=True, stdout=subprocess.DEVNULL)
    subprocess.run(["/usr/bin/python3", "-m", "venv", "--system-site-packages", str(folder / "venv")], check=True)
    return Installed(next(folder.glob("*.whl")), next(folder.glob("*.deb")), folder / "venv")


@pytest.fixture
def client(packages: Installed, tmp_path: Path) -> Repository:
    """The client of the examples as a repository of git, the shop's schema beside it, the wheel in it, and the hooks where their
    configuration says."""
    for name in "client", "shop":
        shutil.copytree(TOP / "examples" / name, tmp_path / name)
    shutil.copy(packages.wheel, tmp_path / "client")
    found = Repository(tmp_path / "client")
    (tmp_path / "hooks").mkdir()
    shutil.copy(TOP / ".pre-commit-hooks.yaml", tmp_path / "hooks")
    config = f"""[user]
name = a
email = a@example.com
[init]
defaultBranch = main
[url "file://{tmp_path}/hooks"]
insteadOf = https://example.com/graphql-checked
"""
    (tmp_path / ".gitconfig").write_text(config)
    more = {"HOME": str(tmp_path), "PRE_COMMIT_HOME": str(tmp_path / "cache"), "PIP_NO_INDEX": "1", "PIP_DISABLE_PIP_VERSION_CHECK": "1"}
    found.environment = {key: it for key, it in found.environment.items() if key not in ("PYTHONPATH", "GRAPHQL_CHECKED_LIBRARY")}
    found.environment.update(more, PATH=f"{packages.environment}/bin:/usr/bin:/bin")
    for folder in ".", "../hooks":
        found.command(["bash", "-c", f"cd {folder} && git init -q && echo '*.whl' >>.git/info/exclude && git add . && git commit -qm first && git tag v0.1.0"])
    return found


@pytest.fixture
def repository(tmp_path: Path) -> Repository:
    """An empty folder."""
    return Repository(tmp_path)


@pytest.fixture
def shop(repository: Repository) -> Repository:
    """A folder with the schema of the shop, and a configuration."""
    config = "schema: schema.graphql\ndocuments: src/**/*.{graphql,ts,tsx,js,py}\nexclude: src/generated/**\n"
    return repository.write({"schema.graphql": SHOP, ".graphqlrc.yml": config})
