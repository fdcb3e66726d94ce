"""The peers: their packages of Debian, fetched into a folder, and a process of each that answers lines of JSON."""
import json
import os
import select
import shutil
import subprocess
import sys

HERE = os.path.dirname(os.path.abspath(__file__))

# What is fetched: the peers, and what they are built and run with. Node and Python are those of the machine.
PACKAGES = ["node-graphql", "golang-github-vektah-gqlparser-dev", "golang-github-agnivade-levenshtein-dev", "golang-1.19-go", "golang-1.19-src",
            "golang-go", "golang-src", "python3-graphql-core", "python3-promise", "python3-rx", "python3-six"]
# How many processor seconds a peer may take for one schema and its documents.
SECONDS = 5
NAMES = ["graphql-js", "gqlparser", "graphql-core"]
PACKAGE_OF = dict(zip(NAMES, ["node-graphql", "golang-github-vektah-gqlparser-dev", "python3-graphql-core"]))


def run(words, **options):
    """Runs a command; what goes wrong ends the script."""
    done = subprocess.run(words, capture_output=True, text=True, check=False, **options)
    if done.returncode:
        sys.exit(f"beside: {' '.join(words)}: {done.stderr[-500:]}")
    return done.stdout


class Packages:
    """The folder of the packages: `debs` as they were fetched, `root` what is in them, `go` what gqlparser is built from."""

    def __init__(self, folder):
        self.folder = os.path.abspath(folder)
        self.debs, self.root, self.go = (os.path.join(self.folder, name) for name in ("debs", "root", "go"))

    def path(self, *names):
        return os.path.join(self.root, "usr", *names)

    def fetch(self):
        """Fetches and unpacks what is not there."""
        os.makedirs(self.debs, exist_ok=True)
        missing = [it for it in PACKAGES if not any(name.startswith(it + "_") for name in os.listdir(self.debs))]
        if missing:
            print(f"fetching {', '.join(missing)}", flush=True)
            run(["apt-get", "download", *missing], cwd=self.debs)
            shutil.rmtree(self.root, ignore_errors=True)
        if not os.path.isdir(self.root):
            for name in sorted(os.listdir(self.debs)):
                run(["dpkg-deb", "-x", os.path.join(self.debs, name), self.root])

    def versions(self):
        """The version of each peer's package."""
        found = {}
        for peer, package in PACKAGE_OF.items():
            name = next(it for it in os.listdir(self.debs) if it.startswith(package + "_"))
            found[peer] = name.split("_")[1]
        return found

    def built(self):
        """The worker of gqlparser, which is built where it is older than its source."""
        program, source = os.path.join(self.folder, "worker_go"), os.path.join(HERE, "worker.go")
        if os.path.exists(program) and os.path.getmtime(program) > os.path.getmtime(source):
            return program
        # outside of modules the path that ends in v2 has to be a folder
        package = os.path.join(self.go, "src/github.com/vektah/gqlparser/v2")
        if not os.path.isdir(package):
            shutil.copytree(self.path("share/gocode/src/github.com/vektah/gqlparser"), package)
        root = self.path("lib/go-1.19")
        environment = dict(os.environ, GOROOT=root, GO111MODULE="off", GOFLAGS="", GOCACHE=os.path.join(self.folder, "gocache"),
                           GOPATH=f"{self.go}:{self.path('share/gocode')}")
        run([os.path.join(root, "bin/go"), "build", "-o", program, source], env=environment)
        return program

    def words(self, name):
        """How the worker of a peer is run, and over which environment."""
        if name == "graphql-js":
            return ["node", os.path.join(HERE, "worker.js"), self.path("share/nodejs/graphql")], {}
        if name == "gqlparser":
            return [self.built()], {}
        return [sys.executable, "-W", "ignore", os.path.join(HERE, "worker.py")], {"PYTHONPATH": self.path("lib/python3/dist-packages"), "PYTHONSAFEPATH": "1"}


class Peer:
    """A process that answers for a peer; it is started again where it ends, or does not answer in time."""

    def __init__(self, name, packages):
        self.name, self.process = name, None
        self.words, environment = packages.words(name)
        self.environment = dict(os.environ, **environment)

    def ask(self, items, seconds=SECONDS):
        """Its answers to items, each with a schema and documents; None where it does not answer."""
        if not self.process:
            self.process = subprocess.Popen(self.words, env=self.environment, stdin=subprocess.PIPE, stdout=subprocess.PIPE, stderr=subprocess.DEVNULL)
        self.process.stdin.write(json.dumps(items).encode() + b"\n")
        self.process.stdin.flush()
        answer = self.process.stdout.readline() if self.answers(seconds) else b""
        if answer:
            return json.loads(answer)
        self.close()
        return None

    def spent(self):
        """The processor seconds that it has taken."""
        with open(f"/proc/{self.process.pid}/stat", encoding="utf-8") as file:
            fields = file.read().rpartition(")")[2].split()
        return (int(fields[11]) + int(fields[12])) / os.sysconf("SC_CLK_TCK")

    def answers(self, seconds):
        """Whether it answers, or ends, before it has taken so many processor seconds, on a busy machine too."""
        most = self.spent() + seconds
        while not select.select([self.process.stdout], [], [], 1)[0]:
            if self.spent() > most:
                return False
        return True

    def many(self, groups):
        """What it has against each schema, and each document over it: for each group a list, and a list of lists. Where there is no
        answer each group is asked by itself, and then each document."""
        items = [{"schema": schema, "documents": documents} for schema, documents in groups]
        told = self.ask(items, SECONDS + len(items))
        if told is not None:
            return [(it["schema"], it["documents"]) for it in told]
        if len(groups) > 1:
            return [self.many([it])[0] for it in groups]
        nothing = f"no answer: it ends with an error that it cannot catch, or takes more than {SECONDS} seconds"
        alone = [self.ask([{"schema": groups[0][0], "documents": [it]}]) for it in groups[0][1]]
        schemas = [it[0]["schema"] for it in alone if it]
        return [((schemas or [[nothing]])[0], [it[0]["documents"][0] if it else [nothing] for it in alone])]

    def verdicts(self, schema, documents):
        """The same of one schema and its documents."""
        return self.many([(schema, documents)])[0]

    def close(self):
        """Ends the process."""
        if self.process:
            self.process.kill()
            self.process.communicate()
            self.process = None


class Fault:
    """What the checker tells: its rule, its message, and the fault as it is told."""

    def __init__(self, told):
        self.rule, self.message, self.told = told["rule"], told["message"], told

    def __str__(self):
        return f"{self.rule}: {self.message}"


def program_of(script, folder):
    """The program that `./graphql-report` runs, which it builds first where it is not there: the script looks at all sources on each
    call, which is too slow for a process for each schema."""
    path = os.path.join(folder, "smallest.graphql")
    with open(path, "w", encoding="utf-8") as file:
        file.write("type Query { a: Int }")
    process = subprocess.Popen([script, "--batch", "--schema", path], stdin=subprocess.PIPE, stdout=subprocess.PIPE)
    process.stdin.write(b'{"id": 1, "document": "{ a }"}\n')
    process.stdin.flush()
    if b'"accepted":true' not in process.stdout.readline():
        sys.exit(f"beside: {script} does not accept the smallest pair")
    found = os.readlink(f"/proc/{process.pid}/exe")
    process.stdin.close()
    process.wait()
    return found


class Checker:
    """The checker, a process of `graphql-report` for each schema."""

    name = "graphql-checked"

    def __init__(self, words, folder):
        self.words, self.folder = words, folder

    def path(self, index, kind):
        return os.path.join(self.folder, f"{index}.{kind}")

    def many(self, groups):
        """The faults of each schema, and of each document over it. One shell runs all, since that is faster on a busy machine."""
        for index, (schema, documents) in enumerate(groups):
            with open(self.path(index, "graphql"), "w", encoding="utf-8", newline="") as file:
                file.write(schema)
            with open(self.path(index, "lines"), "w", encoding="utf-8") as file:
                file.writelines(json.dumps({"id": i, "document": text}) + "\n" for i, text in enumerate(documents))
        # A schema that is refused is told as text beside --batch, so then it is asked for by itself.
        asked = '"$@" --batch --schema $folder/$i.graphql <$folder/$i.lines >$folder/$i.told 2>/dev/null'
        alone = '"$@" --format json --schema $folder/$i.graphql >$folder/$i.told 2>/dev/null'
        loop = f'folder=$1 count=$2; shift 2; i=0; while [ $i -lt $count ]; do {asked}; s=$?; grep -q "^{{" $folder/$i.told || {{ {alone}; s=$?; }}; echo $s; i=$((i+1)); done'
        statuses = run(["sh", "-c", loop, "sh", self.folder, str(len(groups)), *self.words]).split()
        return [self.answer(index, documents, status) for index, ((_, documents), status) in enumerate(zip(groups, statuses))]

    def answer(self, index, documents, status):
        """What it says of the group of an index."""
        with open(self.path(index, "told"), encoding="utf-8") as file:
            told = [json.loads(line) for line in file]
        if status in "01" and len(told) == len(documents) and all("accepted" in it for it in told):
            return [], [[Fault(fault) for fault in it.get("faults", [])] for it in told]
        faults = [it for it in told if "rule" in it]
        if status != "1" or not faults or any("id" in it for it in told):
            with open(self.path(index, "graphql"), encoding="utf-8", newline="") as file:
                sys.exit(f"beside: the checker answers otherwise than wanted, with status {status}, at {file.read()!r} with {documents!r}")
        return [Fault(it) for it in faults], [[] for _ in documents]

    def verdicts(self, schema, documents):
        """The same of one schema and its documents."""
        return self.many([(schema, documents)])[0]

    def warnings(self, schema, document):
        """The names of its warnings about a schema that it accepts, and about the document over it, if there is one."""
        paths = [self.path("warned", "graphql"), self.path("warned", "document")]
        for path, text in zip(paths, (schema, document)):
            with open(path, "w", encoding="utf-8", newline="") as file:
                file.write(text)
        words = [*self.words, "--warn", "--format", "json", "--schema", paths[0], *(paths[1:] if document else [])]
        told = subprocess.run(words, capture_output=True, text=True, check=False).stdout.splitlines()
        return {it["rule"] for it in map(json.loads, told) if it.get("severity") == "warning"}
