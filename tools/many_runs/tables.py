"""The tables of the study as CSV: makes them, reads them, and makes some of their rows again to compare."""
import collections

from many_runs import program, studies


def columns(study):
    return [*study.key, *study.columns]


def rows_of(study, runs, key):
    """The rows of a key, as words."""
    rows = [[str(cell) for cell in (*key, *row)] for row in study.rows(runs, key)]
    if any(len(row) != len(columns(study)) for row in rows):
        raise program.Fault(1, f"{study.name} {key}: a run has fewer epochs than it should")
    return rows


def make(study, runs, jobs, note):
    """The text of a table: all its runs are made, so many at once."""
    keys, lines = study.keys(), [",".join(columns(study))]
    done = program.in_order(jobs, keys, lambda key: rows_of(study, runs, key))
    for number, (_, rows) in enumerate(done, 1):
        lines += [",".join(row) for row in rows]
        note(study.name, number, len(keys))
    return "\n".join(lines) + "\n"


def read(study, folder):
    """The rows of a table that was made, by its file, as words."""
    path = folder / f"{study.name}.csv"
    lines = program.read_file(path).decode(errors="replace").splitlines()
    rows = [line.split(",") for line in lines]
    if not rows or rows[0] != columns(study) or any(len(row) != len(rows[0]) for row in rows):
        raise program.Fault(program.NO_SCENARIO, f"{path} is not the table of {study.name}")
    return rows[1:]


def records(study, folder):
    """The rows of a table as dicts, with numbers where the words are numbers."""
    return [{name: int(cell) if cell.isdigit() else cell for name, cell in zip(columns(study), row)}
            for row in read(study, folder)]


def differences(study, folder, runs, keys):
    """What differs between a table and its rows as they are made again, for these keys; and whether it has all keys."""
    found, made = [], collections.defaultdict(list)
    for row in read(study, folder):
        made[tuple(row[:len(study.key)])].append(row)
    wanted = [tuple(map(str, key)) for key in study.keys()]
    if list(made) != wanted:
        found.append(f"{study.name}.csv has not the rows of the study, in its order")
    for key in keys:
        words = tuple(map(str, key))
        if made[words] != rows_of(study, runs, key):
            found.append(f"{study.name}.csv: the rows of {','.join(words)} come out otherwise")
    return found


def by_name(name):
    """The study of this name."""
    for study in studies.STUDIES:
        if study.name == name:
            return study
    raise program.Fault(program.USAGE, f"{name} is none of the tables {', '.join(study.name for study in studies.STUDIES)}")
