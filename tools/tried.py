#!/usr/bin/env python3
"""Runs the sessions of documents in a fresh clone and compares what they print.

A session is a block whose commands stand behind `$ `, with further lines of a command behind `> `, and what
it prints below. A line `...` stands for any lines. A block with a name behind its language is written to the
file of that name first. The sessions of a document are run one after another in one shell, at the top of the
clone, with an empty home that is printed as /home/you. A document from the first block on that names a
program of Erlang or Elixir that is missing is left out. With `--write` the outputs are put into the documents,
but for the manual page. The clone is of what is committed; the built program is taken from this checkout and
stands in PATH. Words: documents.
"""
import os, re, shutil, subprocess, sys, tempfile

TOP = os.path.dirname(os.path.dirname(os.path.abspath(__file__)))
DOCUMENTS = ["README.md", "docs/RECIPES.md", "man/beamkit.1"]
NEEDED = ("erl", "erlc", "rebar3", "mix")
END = "--end of a command--"


def blocks(lines):
    """The blocks of a document: the first line, the end, and the name of the file if it is one."""
    begin, name = None, None
    for number, line in enumerate(lines):
        if begin is not None and line in ("```", ".Ed"):
            yield begin, number, name
            begin = None
        elif begin is None and (line.startswith("```") or line.startswith(".Bd -literal")):
            begin, name = number + 1, (line[3:].split() + ["", ""])[1] if line.startswith("`") else ""


def steps(lines):
    """Each command of a session with the lines that it prints."""
    found = []
    for line in lines:
        if line.startswith("$ "):
            found.append(([line[2:]], []))
        elif line.startswith("> ") and found and not found[-1][1]:
            found[-1][0].append(line[2:])
        elif found:
            found[-1][1].append(line)
    return found


def clone(folder):
    """A clone of what is committed, with the built program, and the shell that runs in it."""
    place, home = os.path.join(folder, "beamkit"), os.path.join(folder, "home")
    os.makedirs(f"{home}/.local/bin")
    subprocess.run(["git", "clone", "-q", TOP, place], check=True)
    out = os.path.join(place, "crates", "beam_cli", "out")
    os.mkdir(out)
    shutil.copy(os.path.join(TOP, "crates", "beam_cli", "out", "beam_cli"), out)
    os.symlink(f"{out}/beam_cli", f"{home}/.local/bin/beamkit")
    person = {"GIT_AUTHOR_NAME": "you", "GIT_AUTHOR_EMAIL": "you@localhost", "GIT_AUTHOR_DATE": "2026-01-01T00:00:00Z"}
    other = {name.replace("AUTHOR", "COMMITTER"): value for name, value in person.items()}
    words = {"HOME": home, "PATH": f"{home}/.local/bin:{os.environ['PATH']}", "LC_ALL": "C.UTF-8", "GIT_PAGER": "cat"}
    shell = subprocess.Popen(["bash"], cwd=place, env={**os.environ, **person, **other, **words}, text=True,
                             stdin=subprocess.PIPE, stdout=subprocess.PIPE, stderr=subprocess.STDOUT)
    return shell, home


def printed(shell, command, home):
    """The lines that a command prints."""
    shell.stdin.write("{ " + "\n".join(command) + "\n} </dev/null\nkept=$?; echo; echo '" + END + "'; (exit $kept)\n")
    shell.stdin.flush()
    lines = []
    while (line := shell.stdout.readline().rstrip("\n")) != END:
        lines.append(line.replace(home, "/home/you"))
        if shell.poll() is not None:
            break
    return lines[:-1] if lines and lines[-1] == "" else lines


def alike(expected, found):
    """Whether lines are as expected, where `...` stands for any."""
    pattern = "".join("(?:.*\n)*" if line == "..." else re.escape(line) + "\n" for line in expected)
    return re.fullmatch(pattern, "".join(line + "\n" for line in found)) is not None


def lacking(body):
    """The first program that a block names and that is missing, or none."""
    text = "\n".join(body)
    return next((word for word in NEEDED if re.search(rf"(^|[ (]){word} ", text, re.M) and not shutil.which(word)), None)


def try_session(shell, home, body, document):
    """The lines of a session with what it prints, how many commands it has, and how many print something else."""
    new, wrong = [], 0
    session = steps(body)
    for command, expected in session:
        found = printed(shell, command, home)
        same = alike(expected, found)
        new += ["$ " + command[0], *("> " + line for line in command[1:]), *(expected if same else found)]
        if not same:
            wrong += 1
            print(f"{document}: {command[0]}", *("  expected " + line for line in expected), *("  printed  " + line for line in found), sep="\n")
    return (new if session else body), len(session), wrong


def try_document(document, write):
    """Tries one document, and gives how many of its commands print something else."""
    with open(os.path.join(TOP, document)) as file:
        lines = [line.removeprefix("\\&") for line in file.read().split("\n")]
    ran, wrong, new, kept = 0, 0, [], 0
    with tempfile.TemporaryDirectory() as folder:
        shell, home = clone(folder)
        for begin, end, name in blocks(lines):
            if word := lacking(lines[begin:end]):
                print(f"{document}: left out from line {begin} on, {word} is missing")
                break
            if name:
                printed(shell, [f"cat > {name} <<'END OF FILE'", *lines[begin:end], "END OF FILE"], home)
                continue
            session, commands, others = try_session(shell, home, lines[begin:end], document)
            new += [*lines[kept:begin], *session]
            ran, wrong, kept = ran + commands, wrong + others, end
        shell.stdin.close()
        shell.wait()
    if write and not document.endswith(".1"):
        with open(os.path.join(TOP, document), "w") as file:
            file.write("\n".join(new + lines[kept:]))
    print(f"{document}: {ran} commands, {wrong} print something else")
    return wrong


words = [word for word in sys.argv[1:] if word != "--write"]
sys.exit(1 if sum([try_document(document, "--write" in sys.argv) for document in words or DOCUMENTS]) else 0)
