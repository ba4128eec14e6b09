"""Inputs with stored answers. A crate's data/ has the inputs and their list; its stdout has each name, and behind it the answer."""
import pathlib
import subprocess

ROOT = pathlib.Path(__file__).resolve().parent.parent
REFERENCE = ROOT / "reference"
JOBS = ROOT / "crates/cases"
SCRIPTS = ROOT / "crates/scripts"


def answer(program, data):
    """The answer of a program of the reference."""
    return subprocess.run([REFERENCE / "target/release" / program], input=data, stdout=subprocess.PIPE, check=True).stdout


def write(crate, program, inputs):
    """Writes a crate's inputs anew, and the reference program's answers."""
    data = crate / "data"
    data.mkdir(exist_ok=True)
    for old in data.iterdir():
        old.unlink()
    for name, content in inputs.items():
        (data / name).write_bytes(content)
    (data / "list").write_text("".join(name + "\n" for name in inputs))
    (crate / "stdout").write_bytes(b"".join(name.encode() + b"\n" + answer(program, content) for name, content in inputs.items()))


def read(crate):
    """A crate's inputs, and what its stdout has behind the name of each, both in their order."""
    inputs = {name: (crate / "data" / name).read_bytes() for name in (crate / "data/list").read_text().split()}
    answers, name = {}, ""
    for line in (crate / "stdout").read_bytes().splitlines(keepends=True):
        word = line[:-1].decode("latin-1")
        if word in inputs:
            answers[word], name = b"", word
        else:
            answers[name] = answers.get(name, b"") + line
    return inputs, answers
