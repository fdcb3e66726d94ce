"""How long `graphql-check` takes: makes a repository of so many documents in .graphql, .ts and .py over an introspection result."""

import json
import os
import subprocess
import sys
import tempfile
import time
from pathlib import Path
from typing import List

sys.path.insert(0, str(Path(__file__).parent))
from conftest import SHOP, TOP  # noqa: E402
from test_introspection import introspected  # noqa: E402

MOST = 5.0
"""How many seconds 1,000 documents may take."""
FORMS = (("graphql", "%s\n"), ("ts", 'import { gql } from "x";\nexport const QUERY = gql`\n%s\n`;\n'), ("py", 'from gql import gql\nQUERY = gql("""\n%s\n""")\n'))
QUERY = """query Page%d($id: ID!, $status: OrderStatus = OPEN) {
  customer(id: $id) {
    name
    orders(status: $status, first: %d) {
      ...OrderHead
      lines {
        quantity
        product { ...Card%d related(first: 3) { ...Card%d } }
      }
    }
  }
}"""
CARD = "fragment Card%d on Product { id name price(currency: USD) tags }"


def filled(folder: Path, count: int) -> List[str]:
    """Fills a folder; one document in a hundred has a fault, whose places it gives."""
    (folder / "schema.json").write_text(json.dumps(introspected(SHOP)))
    (folder / ".graphqlrc.json").write_text('{"schema": "schema.json", "documents": "src/**/*.{graphql,ts,py}"}')
    (folder / "src").mkdir()
    (folder / "src/head.graphql").write_text("fragment OrderHead on Order { id status placedAt total }")
    wrong = []
    for number in range(count - 1):
        card = number + 1 if number + 1 < count - 1 else 1
        text = CARD % number if number % 2 else QUERY % (number, number, card, card)
        text = text.replace("    name\n", "    nmae\n") if number % 100 == 50 else text
        ending, form = FORMS[number % 3 if number % 2 else number // 2 % 3]
        path = folder / f"src/{number % 40}/d{number}.{ending}"
        path.parent.mkdir(exist_ok=True)
        path.write_text(form % text)
        line = next((at for at, it in enumerate((form % text).split("\n"), 1) if it == "    nmae"), 0)
        wrong += [f"{path.relative_to(folder)}:{line}:5"] if line else []
    return sorted(wrong)


def main() -> int:
    """Tells the seconds for each number of documents; 1 where the faults are others, or 1,000 take too long."""
    for count in 1000, 10000:
        with tempfile.TemporaryDirectory() as name:
            wanted, environment = filled(Path(name), count), {**os.environ, "PYTHONPATH": str(TOP / "python")}
            begun, before = time.monotonic(), os.times().children_user + os.times().children_system
            words = [sys.executable, "-m", "graphql_checked", "check", "--format", "short"]
            done = subprocess.run(words, cwd=name, env=environment, capture_output=True, text=True, check=False)
            seconds = time.monotonic() - begun
            used = os.times().children_user + os.times().children_system - before
            told = [line.split(": error[UndefinedField]")[0] for line in done.stdout.splitlines()]
            print(f"{done.stderr.strip()}: {seconds:.2f} s on {os.cpu_count()} processors, {used:.2f} s of processor")
            if count == 1000 and seconds > MOST:
                print(f"more than {MOST} s")
                return 1
            if sorted(told) != wanted or len(wanted) != count // 100:
                print(f"other faults than {len(wanted)}: {told[:3]} {wanted[:3]}")
                return 1
    return 0


if __name__ == "__main__":
    sys.exit(main())
