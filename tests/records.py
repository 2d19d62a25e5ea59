"""The records of refusals: `crates/NAME/mutants.tried` has a line for each mutant of a crate that a check refused.

A line has a checksum, the mutant, its function and the goals. The checksum is of all that decides the verdict:

- the edit, without its lines for readers;
- the function that it turns with its proofs, and the parts of its crate and of the crates below to which their names lead
  (`parts.py`);
- the crates that its crate uses;
- the code of `verdicts.py`, and of the module that lays out the words of a check;
- the logic of the toolchain, as `rt version` prints it.

Comments outside of contracts, and the layout of code, do not count. So a record holds in any clone, and until one of these
changes. `tests/mutants` tries some of the recorded mutants anew, so that a wrong record is found.
"""
import ast
import pathlib
import re

from parts import Parts, sum_of

HERE = pathlib.Path(__file__).resolve().parent
LINE = re.compile(r"([0-9a-f]{32}) (\S+): (\S+): (.*)")


def code_of(path, names=()):
    """The code of a Python file, or of its functions of these names, without comments, layout and doc strings."""
    tree = ast.parse(path.read_text())
    if names:
        tree = ast.Module([node for node in ast.walk(tree) if isinstance(node, ast.FunctionDef) and node.name in names], [])
    for node in ast.walk(tree):
        body = getattr(node, "body", None)
        if isinstance(body, list) and body and isinstance(body[0], ast.Expr) and isinstance(body[0].value, ast.Constant):
            node.body = body[1:]
    return ast.dump(tree)


class Records:
    """The records of all crates, and the checksums that they must have."""

    def __init__(self, crates, kit):
        self.parts, self.sums, self.lines = Parts(crates), {}, {}
        version = (kit / "KIT-ID").read_text().split()
        logic = version[version.index("logic") + 1]
        self.tools = sum_of(logic, code_of(HERE / "verdicts.py"), code_of(HERE.parent / "tools/crates.py", ("words", "below")))

    def file_of(self, crate):
        return crate.folder / "mutants.tried"

    def sum_of_mutant(self, mutant):
        """The checksum of all that decides the verdict on a mutant."""
        if mutant not in self.sums:
            crate = mutant.crate
            self.sums[mutant] = sum_of(self.tools, crate.name, crate.is_static, crate.uses, mutant.name, mutant.function, mutant.edit,
                                       self.parts.sum_of(mutant))
        return self.sums[mutant]

    def lines_of(self, crate):
        """The records of a crate: for each mutant its checksum, its function and the goals."""
        if crate not in self.lines:
            path = self.file_of(crate)
            found = map(LINE.fullmatch, path.read_text().splitlines() if path.is_file() else ())
            self.lines[crate] = {it[2]: (it[1], it[3], it[4]) for it in found if it}
        return self.lines[crate]

    def goals_of(self, mutant):
        """The goals at which a mutant was refused, by a record that holds. `None` without one."""
        found = self.lines_of(mutant.crate).get(mutant.path.stem)
        return found[2] if found and found[:2] == (self.sum_of_mutant(mutant), mutant.function) else None

    def write(self, crate, verdicts, names):
        """Writes the refusals among the verdicts on mutants of a crate, and drops the records of others that were tried, and of
        those that are not among the names of its mutants."""
        lines = self.lines_of(crate)
        for mutant, verdict in verdicts.items():
            lines.pop(mutant.path.stem, None)
            if verdict.kind == "refused":
                lines[mutant.path.stem] = (self.sum_of_mutant(mutant), mutant.function, verdict.text)
        for name in set(lines) - names:
            del lines[name]
        text = "".join(f"{found} {name}: {function}: {goals}\n" for name, (found, function, goals) in sorted(lines.items()))
        path = self.file_of(crate)
        if text:
            path.write_text(text)
        else:
            path.unlink(missing_ok=True)
