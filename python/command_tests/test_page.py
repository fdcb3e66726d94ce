"""Each run of docs/REPOSITORY.md, as a newcomer makes them, one after another in one repository; and its blocks of other languages."""

import re
import shutil
import subprocess
from pathlib import Path
from typing import Any, Dict, List, Tuple

import pytest
import yaml  # type: ignore[import]
from conftest import TOP, Installed, Repository

PAGE = (TOP / "docs/REPOSITORY.md").read_text()


def blocks(language: str) -> List[str]:
    """The blocks of a language."""
    return re.findall(rf"^```{language}\n(.*?)^```$", PAGE, re.M | re.S)


def runs() -> List[Tuple[str, List[str]]]:
    """The commands, each with the lines that it is to print and its status in brackets."""
    found: List[Tuple[str, List[str]]] = []
    for line in "".join(blocks("console")).splitlines():
        if line.startswith("$ "):
            found.append((line[2:], []))
        else:
            found[-1][1].append(line)
    return found


def test_every_run(client: Repository) -> None:
    found = runs()
    assert len(found) >= 12
    for command, wanted in found:
        done = client.command(["bash", "-c", f"{{ {command}; }} 2>&1"])
        printed = done.out.splitlines() + ([f"[{done.status}]"] if done.status else [])
        assert printed == wanted, command


def test_the_action_of_the_page_is_that_of_the_repository() -> None:
    (block,) = blocks("yaml")
    (step,) = yaml.safe_load(block)
    assert set(step["with"]) <= set(yaml.safe_load((TOP / "action.yml").read_text())["inputs"])


def test_the_words_for_neovim(client: Repository, packages: Installed, tmp_path: Path) -> None:
    (block,) = blocks("lua")
    subprocess.run([str(packages.environment / "bin/python3"), "-m", "pip", "install", "--quiet", str(packages.wheel)], check=True, env=client.environment)
    # before 0.8 neovim has no `vim.lsp.start`
    shim = "vim.lsp.start = vim.lsp.start or function(it) vim.lsp.buf_attach_client(0, vim.lsp.start_client(it)) end\n"
    (tmp_path / "init.lua").write_text(shim + block)
    asked = "vim.wait(30000, function() return #vim.diagnostic.get(0) > 0 end, 20); print(vim.diagnostic.get(0)[1].message)"
    client.write({"src/a.graphql": "{ nope }"})
    words = ["nvim", "--headless", "-u", str(tmp_path / "init.lua"), "-n", "src/a.graphql", "-c", "set filetype=graphql", "-c", f"lua {asked}", "-c", "qall!"]
    assert "`Query` has no field `nope`" in client.command(words).told


def step_runs(given: Dict[str, str]) -> List[Tuple[str, Dict[str, str], str]]:
    """The steps of action.yml that are run for these inputs: commands, variables, folders."""
    action: Dict[str, Any] = yaml.safe_load((TOP / "action.yml").read_text())
    inputs = {key: given.get(key, it["default"]) for key, it in action["inputs"].items()}
    fill = re.compile(r"\$\{\{ inputs\.(\w+) \}\}")
    found = []
    for step in action["runs"]["steps"]:
        condition = re.fullmatch(r"inputs\.(\w+) != ''", step.get("if", ""))
        assert condition or "if" not in step
        if not condition or inputs[condition.group(1)]:
            variables = {key: fill.sub(lambda it: inputs[it.group(1)], value) for key, value in step.get("env", {}).items()}
            folder = fill.sub(lambda it: inputs[it.group(1)], step.get("working-directory", "."))
            found.append((step["run"], variables, folder))
    assert action["runs"]["using"] == "composite"
    return found


def act(client: Repository, given: Dict[str, str]) -> List[Tuple[int, str]]:
    """Runs the steps as a runner of GitHub does, which stops at the first that fails."""
    ends = []
    before = client.environment
    for command, variables, folder in step_runs(given):
        client.environment = {**before, **variables}
        done = client.command(["bash", "--noprofile", "--norc", "-eo", "pipefail", "-c", command], folder)
        ends.append((done.status, done.out))
        if done.status:
            break
    client.environment = before
    return ends


def test_the_steps_of_the_action(client: Repository, packages: Installed) -> None:
    given = {"wheel": str(packages.wheel), "folder": "client", "manifest": "persisted-queries.json"}
    outer = Repository(client.folder.parent)
    outer.environment = {**client.environment, "GITHUB_WORKSPACE": str(outer.folder)}
    client.command(["bash", "-c", f"python3 -m pip install --quiet {packages.wheel} && graphql-check manifest --output persisted-queries.json"])
    assert [status for status, _ in act(outer, given)] == [0, 0, 0]
    client.write({"src/a.graphql": "query Nope {\n  nope\n}"})
    status, out = act(outer, given)[-1]
    message = "`Query` has no field `nope`%0A= help: did you mean `node`?"
    assert (status, out) == (1, f"::error file=client/src/a.graphql,line=2,endLine=2,col=3,endColumn=7,title=UndefinedField::{message}\n")
    client.write({"src/a.graphql": "query More { __typename }"})
    assert [status for status, _ in act(outer, given)] == [0, 0, 1]


def test_what_the_container_is_made_of(packages: Installed, client: Repository, tmp_path: Path) -> None:
    """No container is made here: what it copies is there, its programs are in the package, and its command runs from there."""
    text = (TOP / "Containerfile").read_text()
    copied = re.findall(r"^COPY \S*/(\S+) /tmp/$", text, re.M)
    assert len(copied) == 1 and list(packages.deb.parent.glob(copied[0])) == [packages.deb]
    installed = re.findall(r"--no-install-recommends (.+) /tmp/", text)[0].split()
    for name in installed:
        assert subprocess.run(["apt-cache", "show", name], stdout=subprocess.DEVNULL, stderr=subprocess.DEVNULL, check=False).returncode == 0, name
    (entry,) = re.findall(r'^ENTRYPOINT \["(.+)"\]$', text, re.M)
    subprocess.run(["dpkg-deb", "-x", str(packages.deb), str(tmp_path / "root")], check=True)
    assert client.command([str(tmp_path / "root/usr/bin" / entry)]).told == "40 documents accepted\n"


def test_the_hook_lets_a_commit_without_a_fault_through(client: Repository, packages: Installed) -> None:
    assert shutil.which("pre-commit"), "pre-commit is needed"
    steps = f"""
python3 -m pip install --quiet {packages.wheel}
graphql-check manifest --output persisted-queries.json && pre-commit install && git add . && git commit -qm manifest
echo 'query Menu {{ __typename }}' >src/menu.graphql && git add . && ! git commit -qm "not in the manifest"
graphql-check manifest --output persisted-queries.json && git add . && git commit -qm menu
echo 'x' >README && git add . && git commit -qm other
git log --format=%s
"""
    assert client.command(["bash", "-ec", steps]).out.splitlines()[-4:] == ["other", "menu", "manifest", "first"]


@pytest.mark.parametrize("name", ["graphql-check", "graphql-manifest"])
def test_the_hooks_are_well_formed(name: str) -> None:
    """The members that pre-commit's documentation names."""
    (hook,) = [it for it in yaml.safe_load((TOP / ".pre-commit-hooks.yaml").read_text()) if it["id"] == name]
    assert {"id", "name", "entry", "language", "files"} <= set(hook)
    for path in "a.graphql", "b/c.tsx", "d.py", "e.mjs", ".graphqlrc", "b/.graphqlrc.yml", "schema.json":
        assert re.search(hook["files"], path), path
    assert not re.search(hook["files"], "README.md")
