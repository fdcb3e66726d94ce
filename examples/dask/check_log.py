#!/usr/bin/env python3
"""Checks the documents of a log on several machines, by Dask: check_log.py [--documents N] [--workers N] [--schema FILE]

The log is lines of JSON, {"id": .., "document": ..}, in several files. A scheduler and workers, each a process, are started here on
loopback; on machines of your own `Client("scheduler:8786")` takes their place. Each worker opens the schema once, by a cached function
of its path, and answers a batch of lines with the faults of those that are refused. First each worker is asked for the schema, by
`run`, which fails here where one does not answer. Run by scripts/c_library, with python3-distributed of Debian; the package
graphql_checked is to be on PYTHONPATH."""
import argparse
import functools
import json
import os
import sys
import tempfile
import time

from distributed import Client, LocalCluster

from graphql_checked import Schema

TOP = os.path.dirname(os.path.dirname(os.path.dirname(os.path.abspath(__file__))))
LINES = 2000  # in a file


@functools.lru_cache(maxsize=None)
def schema_at(path):
    """The schema in a file: opened once a worker."""
    with open(path, "rb") as file:
        return Schema([file.read()], paths=[path])


def begun(schema_path):
    """Opens the schema in a worker, whose process it tells."""
    schema_at(schema_path)
    return os.getpid()


def check_file(schema_path, log_path):
    """The process, its processor time, how many documents the file has, and of each that is refused its id and its faults."""
    start, schema, count, refused = time.process_time(), schema_at(schema_path), 0, []
    with open(log_path, "rb") as lines:
        for count, line in enumerate(lines, 1):
            request = json.loads(line)
            report = schema.check(request["document"], path=str(request["id"]))
            if not report:
                refused.append((request["id"], [(fault.line, fault.column, fault.rule, fault.hint) for fault in report]))
    return os.getpid(), time.process_time() - start, count, refused


def write_log(folder, count):
    """A log of documents of the examples: every third is one that the shop's schema refuses."""
    names = ["shop/customer", "shop/search", "refused/unknown_field"]
    texts = []
    for name in names:
        with open(f"{TOP}/examples/{name}.graphql", encoding="utf-8") as file:
            texts.append(file.read())
    paths = []
    for start in range(0, count, LINES):
        paths.append(f"{folder}/{start}.jsonl")
        with open(paths[-1], "w", encoding="utf-8") as file:
            for number in range(start, min(start + LINES, count)):
                file.write(json.dumps({"id": number, "document": texts[number % 3]}) + "\n")
    return paths


def main():
    reader = argparse.ArgumentParser(description=__doc__, formatter_class=argparse.RawDescriptionHelpFormatter)
    reader.add_argument("--documents", type=int, default=100_000)
    reader.add_argument("--workers", type=int, default=3)
    reader.add_argument("--schema", default=f"{TOP}/examples/shop/schema.graphql")
    given = reader.parse_args()
    with tempfile.TemporaryDirectory() as folder:
        paths = write_log(folder, given.documents)
        cluster = LocalCluster(n_workers=given.workers, threads_per_worker=1, host="127.0.0.1", dashboard_address=None, local_directory=folder)
        with cluster, Client(cluster) as client:
            client.wait_for_workers(given.workers)
            workers = set(client.run(begun, given.schema).values())
            start = time.monotonic()
            answers = client.gather(client.map(functools.partial(check_file, given.schema), paths, pure=False))
            seconds = time.monotonic() - start
    pids, times, counts, refusals = zip(*answers)
    count, refused = sum(counts), [one for some in refusals for one in some]
    wanted = [(number, [(4, 5, "UndefinedField", "did you mean `price`?")]) for number in range(2, given.documents, 3)]
    if (count, sorted(refused)) != (given.documents, wanted):
        print(f"check_log: {count} documents, {len(refused)} refused, and not {given.documents} and {len(wanted)}")
        return 1
    if len(workers) != given.workers or not workers.issuperset(pids):
        print(f"check_log: {len(workers)} workers, and not {given.workers}, or a document was checked elsewhere")
        return 1
    print(f"{count:,} documents, {len(refused):,} refused, {len(workers)} workers, {seconds:.1f} seconds, {count / seconds:,.0f} a second, "
          f"{sum(times) / count * 1e6:.0f} us of processor time each")
    return 0


if __name__ == "__main__":
    sys.exit(main())
