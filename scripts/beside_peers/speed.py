"""The same work by each: what a process takes that reads a schema and checks a document, and what a document more over the held schema
takes. All are processor seconds of whole processes, measured in one run, so that they can be compared; a document more is the
difference of a process that checks it often and of one that checks it once.

The schema is that of scripts/speed.py: 780 types described at length, as large as GitHub's. graphql-core reads it without its
descriptions, which it does not know."""
import json
import os
import re
import subprocess
import sys

sys.path.insert(0, os.path.dirname(os.path.dirname(os.path.abspath(__file__))))
import speed as texts  # scripts/speed.py

# How often the document is checked over the held schema, and how often each process is run, of which the least time counts.
OFTEN, RUNS = 1000, 1


def spent(words, line, environment):
    """The processor seconds of a process that reads a line, and its answer."""
    process = subprocess.Popen(words, env=dict(os.environ, **environment), stdin=subprocess.PIPE, stdout=subprocess.PIPE, stderr=subprocess.DEVNULL)
    process.stdin.write(line.encode())
    process.stdin.close()
    answer = process.stdout.read()
    process.stdout.close()
    _, status, usage = os.wait4(process.pid, 0)
    process.returncode = status
    return usage.ru_utime + usage.ru_stime, answer.decode()


def of_checker(program, folder, count):
    """How `graphql-report` is run for so many documents, and what it reads."""
    path = os.path.join(folder, "described.graphql")
    with open(path, "w", encoding="utf-8") as file:
        file.write(texts.described(780))
    lines = "".join(json.dumps({"id": i, "document": texts.SMALL_DESCRIBED}) + "\n" for i in range(count))
    return [*program, "--batch", "--schema", path], lines, {}


def of_peer(peer, packages, count):
    """How a peer's worker is run for so many documents, and what it reads."""
    schema = texts.described(780)
    if peer.name == "graphql-core":
        schema = "schema { query: Query }\n" + re.sub(r'"""[\s\S]*?"""|^ *"[^"\n]*"$', "", schema, flags=re.M)
    words, environment = packages.words(peer.name)
    return words, json.dumps([{"schema": schema, "documents": [texts.SMALL_DESCRIBED], "count": count}]) + "\n", environment


def is_accepted(answer, count):
    """Whether an answer accepts all."""
    if '"accepted"' in answer:
        return answer.count('"accepted":true') == count
    told = json.loads(answer)[0]
    return told["schema"] == [] and told["refused"] == 0


def run(judges, packages, folder):
    """Prints what each takes, and as ratios to the checker."""
    found = {}
    ways = {"graphql-checked": lambda count: of_checker(judges.checker.words, folder, count)}
    ways.update({peer.name: lambda count, peer=peer: of_peer(peer, packages, count) for peer in judges.peers})
    for name, way in ways.items():
        least = []
        for count in (1, OFTEN):
            words, line, environment = way(count)
            times = []
            for _ in range(RUNS):
                seconds, answer = spent(words, line, environment)
                if not is_accepted(answer, count):
                    sys.exit(f"beside: {name} does not accept what is measured: {answer[:300]}")
                times.append(seconds)
            least.append(min(times))
        found[name] = least[0], (least[1] - least[0]) / (OFTEN - 1)
        process, held = found[name]
        ratios = [value / of_ours for value, of_ours in zip(found[name], found["graphql-checked"])]
        print(f"| {name} | {process * 1000:.0f} ms | {held * 1e6:.0f} us | {ratios[0]:.1f} | {ratios[1]:.1f} |", flush=True)
