"""Lists of files that fit into a number of lines: the fewer lines, the less exact. A list of few is whole, however long."""

import os

# A list of fewer places than FEW is whole.
WIDTH, LABEL, NUMBERS_SHOWN, FEW = 150, 12, 4, 40
ROOM = WIDTH - LABEL


def cut(line):
    return line if len(line) <= WIDTH else line[: WIDTH - 3] + " .."


def short(path):
    return path.removeprefix("crates/") or "."


def of_numbers(_, numbers):
    """The first line numbers, and how many there are more."""
    shown = ",".join(map(str, numbers[:NUMBERS_SHOWN]))
    return f":{shown}" + (f"+{len(numbers) - NUMBERS_SHOWN}" if len(numbers) > NUMBERS_SHOWN else "")


def all_numbers(_, numbers):
    return ":" + ",".join(map(str, numbers))


def only_names(_, numbers):
    return ""


def of_counts(_, numbers):
    return f"({len(numbers)})"


def filled(entries):
    """The entries in lines, with semicolons between them."""
    lines = []
    for entry in entries:
        if lines and len(lines[-1]) + 2 + len(entry) <= ROOM:
            lines[-1] += f"; {entry}"
        else:
            lines.append(entry)
    return lines


def labelled(path, numbers, label):
    """The label of a file; several if it is longer than a line."""
    whole, half = label(path, numbers), len(numbers) // 2
    if len(short(path)) + len(whole) < ROOM or not half:
        return [whole]
    return labelled(path, numbers[:half], label) + labelled(path, numbers[half:], label)


def by_folder(hits, label):
    """An entry for each folder, with its files; more than one if it is longer than a line."""
    folders = {}
    for path in hits:
        folders.setdefault(os.path.dirname(path), []).append(path)
    for folder, paths in folders.items():
        files = [(path, said) for path in paths for said in labelled(path, hits[path], label)]
        if len(paths) == 1:
            yield from (short(path) + said for path, said in files)
            continue
        line = head = f"{short(folder)}/"
        for path, said in files:
            file = f" {os.path.basename(path)}{said}"
            if line != head and len(line + file) > ROOM:
                yield line
                line = head
            line += file
        yield line


def by_count(hits, depth):
    """An entry for each folder of that depth, with the number of its files."""
    folders = {}
    for path in hits:
        folders.setdefault("/".join(path.split("/")[:-1][:depth]), []).append(path)
    for folder, paths in folders.items():
        if len(paths) > 1:
            yield f"{short(folder)}/ {len(paths)} files"
        else:
            yield short(paths[0]) + of_counts(paths[0], hits[paths[0]])


def fits(lines, room):
    return len(lines) <= room and all(len(line) <= ROOM for line in lines)


def fitting(hits, room, label, counts=of_counts):
    """The most exact of these lists that fits: lines, counts of lines, names, counts of files. With few lines all are named, with
    few files each of these, whether they fit or not."""
    hits = {path: hits[path] for path in sorted(hits)}
    if sum(map(len, hits.values())) < FEW:
        return filled(by_folder(hits, all_numbers if label is of_numbers else label))
    for entries in (by_folder(hits, label), by_folder(hits, counts), by_folder(hits, only_names)):
        lines = filled(entries)
        if fits(lines, room):
            return lines
    if len(hits) < FEW:
        return lines
    for entries in (by_count(hits, depth) for depth in (4, 3, 2)):
        lines = filled(entries)
        if fits(lines, room):
            return lines
    return [f"{len(hits)} files in {', '.join(sorted({path.split('/')[0] for path in hits}))}"]
