"""What disagrees about one record: each command against the rows of `csv`, and these against the
model."""
import json
import os
import warnings

import compare
import measures
import pages
import pictures
import traces
from against import keys_of, read_plainly, with_model, KEPT, OF_SIZE, QUIET, UNTOLD
from views import Page, Picture, Rows, Shown, as_json, run

HAS_LIBRARY = bool(os.environ.get("DFR_COMTRADE_LIBRARY"))
VIEWS = (["show"], ["show", "--json"], ["list"], ["events"], ["measure"], ["plot"], ["page"],
         ["measure", "--at=0"])


class Told:
    """What csv prints of a record: its status, its rows, its notes."""

    def __init__(self, comtrade, names):
        self.status, self.out, self.said = run(comtrade, "csv", *names)
        self.keys = keys_of(self.said)


def is_plain(record):
    """Whether the library can open these files: no archives."""
    return HAS_LIBRARY and set(record) <= {"cfg", "dat", "cff"}


def refused_by_all(comtrade, record, names, folder):
    """A record that csv refuses is refused by every command, with a reason and without output."""
    for words in VIEWS:
        status, out, said = run(comtrade, *words,
                                *(names[:1] if words[0] in ("list", "events") else names))
        quiet = words[0] in ("list", "events") or not out
        if status != 1 or not (said or out).strip() or not quiet:
            yield "csv refuses, %s: status %d: %s" % (" ".join(words), status, said.strip()[-200:])
    status, _, said = run(comtrade, "import", *names, os.path.join(folder, "new"))
    if status != 1 or os.path.exists(os.path.join(folder, "new.cfg")):
        yield "csv refuses, import: status %d: %s" % (status, said.strip()[-200:])
    if is_plain(record) and by_library(names):
        yield "csv refuses, the library reads"


def with_notes(comtrade, names, csv):
    """Every command tells the same repairs."""
    for words in (["show", "--json"], ["list", "--json"], ["events", "--json"],
                  ["measure", "--json"], ["plot", "--whole", "--all"], ["page"]):
        said = run(comtrade, *words, *(names[:1] if words[0] in ("list", "events") else names))[2]
        if not csv.keys <= keys_of(said) and not said.startswith("comtrade: "):
            yield "%s tells other notes than csv: %s, %s" % (words[0], sorted(keys_of(said)),
                                                             sorted(csv.keys))


def moments(rows, chance):
    """Times at which a record is measured: at the end, and two by chance."""
    return [rows.millis[-1]] + [chance.choice(rows.millis[len(rows.millis) // 2:])
                                for _ in range(2)]


def with_picture(comtrade, names, show, rows, csv):
    status, out, said = run(comtrade, "plot", "--whole", "--all", *names)
    if status != 0:
        yield "plot: status %d: %s" % (status, said.strip()[-200:])
        return
    picture = Picture(out)
    yield from pictures.with_picture(picture, show, rows)
    yield from pictures.with_bars(picture, show, rows)
    yield from traces.with_traces(out, show, rows)
    row, is_inception = border_of(comtrade, names, rows)
    if row is not None:
        yield from pictures.with_levels(picture, show, rows, row, is_inception)
    if said != csv.said:
        yield "plot tells other notes than csv: %r, %r" % (said, csv.said)


def border_of(comtrade, names, rows):
    """The index of the row around which `plot` gives rms values, and whether it is the first
    inception of a current; else it is the trigger."""
    status, out, _ = run(comtrade, "measure", "--json", *names)
    left = [c["left_row"] for c in json.loads(out)["currents"]
            if c["left_row"] is not None] if status == 0 else []
    later = [i for i, ms in enumerate(rows.millis) if ms >= 0]
    if left:
        return min(left) - 1, True
    return later[0] if later else None, False


def with_page(comtrade, names, show, rows, csv, measured, folder):
    """The page: its data, and what its own script makes of them, where node is here."""
    status, out, said = run(comtrade, "page", *names)
    if status != 0 or said != csv.said:
        yield "page: status %d: other notes than csv: %r, %r" % (status, said, csv.said)
        return
    yield from pages.with_page(Page(out), show, rows)
    shown = Shown.of(out, folder,
                     sorted({made["last_row"] for made in measured} | {1, rows.count}))
    if shown:
        yield from pages.with_script(shown, show, rows, measured)


def by_library(names):
    """The record that the C library reads; None where it refuses the files."""
    import dfr_comtrade
    with warnings.catch_warnings():
        warnings.simplefilter("ignore")
        try:
            return dfr_comtrade.read(*names)
        except (dfr_comtrade.CfgFault, dfr_comtrade.DatFault):
            return None


def with_library(names, keys, show, written):
    """What the C library reads of the files themselves: the samples and notes of import."""
    record = by_library(names)
    if record is None:
        yield "csv: status 0, the library refuses"
        return
    if keys_of("\n".join(record.notes)) != keys:
        yield "the library tells other notes than import: %s, %s" % (record.notes, sorted(keys))
    for what in compare.with_library(record, show, written):
        yield "of the files themselves: " + what


def with_import(comtrade, record, names, rows, keys, folder, show):
    new = os.path.join(folder, "new")
    status, out, said = run(comtrade, "csv", new)
    told = keys_of(said)
    if status != 0 or len(told) != said.count("\n") or not told <= KEPT & keys:
        yield "csv of what import wrote: status %d: %s" % (status, said.strip()[-200:])
        return
    written = Rows(out, len(show["analog"]))
    yield from compare.with_import(written, rows, "values-rounded" in keys)
    if HAS_LIBRARY:
        again = as_json(comtrade, "show", "--json", new)
        yield from compare.with_library(by_library([new + ".cfg"]), again, written)
        if is_plain(record):
            yield from with_library(names, keys, again, written)


def with_plain(record, rows, csv, seen):
    """The model, where csv tells no repair: it reads the record, and reads the same."""
    if not csv.keys <= QUIET or "zip" in record or any(ending.endswith(("gz", "cfz"))
                                                       for ending in record):
        return
    found = read_plainly(record, csv.keys | {"padding"})
    wrong = [list(with_model(one, rows, csv.keys)) for one in found]
    seen["as the model"] += bool(found) and [] in wrong
    if not found and not csv.keys:
        yield "csv tells nothing of files that aren't plain"
    elif found and [] not in wrong:
        yield from wrong[0]


def of_times(comtrade, names, show, rows, csv, chance, folder):
    """Commands whose numbers stand at times."""
    yield from compare.with_show(show, rows)
    yield from compare.with_list(as_json(comtrade, "list", "--json", names[0]), show, rows)
    yield from compare.with_events(as_json(comtrade, "events", "--json", names[0]), show, rows)
    status, out, _ = run(comtrade, "measure", "--json", *names)
    if status == 0:
        yield from measures.with_currents(json.loads(out), show, rows)
    page = Page(run(comtrade, "page", *names)[1])
    measured, skews = [], [float(channel["skew"]) for channel in page.head["analog"]]
    for at in moments(rows, chance):
        status, out, _ = run(comtrade, "measure", "--json", "--at=%.6f" % at, *names)
        if status == 0:
            measured.append(json.loads(out))
            yield from measures.with_measure(measured[-1], show, rows, skews)
    yield from with_picture(comtrade, names, show, rows, csv)
    yield from with_page(comtrade, names, show, rows, csv, measured, folder)


def disagreements(comtrade, record, names, chance, folder, seen):
    """What disagrees about one record. Counts in `seen` what was compared."""
    csv = Told(comtrade, names)
    if csv.status != 0:
        seen["refused by all"] += 1
        yield from refused_by_all(comtrade, record, names, folder)
        return
    status, out, said = run(comtrade, "import", *names, os.path.join(folder, "new"))
    if status != 0:
        seen["not imported"] += 1
        if "`comtrade import` cannot read it" not in csv.said:
            yield "csv: status 0, import: status %d: %s" % (status, said.strip()[-200:])
        return
    keys = keys_of(out)
    beside = UNTOLD | OF_SIZE
    if keys - beside != csv.keys - beside or "values-rounded" in csv.keys - keys:
        yield "import tells other notes than csv: %s, %s" % (sorted(keys), sorted(csv.keys))
    show = as_json(comtrade, "show", "--json", *names)
    rows = Rows(csv.out, len(show["analog"]))
    for channel, name in zip(show["analog"] + show["status"], rows.names):
        if channel["id"].endswith("..."):  # (show cuts long names)
            channel["id"] = name.rpartition(" [")[0] or name
    seen["with notes"] += bool(csv.keys)
    yield from with_plain(record, rows, csv, seen)
    yield from with_notes(comtrade, names, csv)
    if rows.count == 0 or None in rows.millis:
        seen["without times"] += 1
        yield from pages.with_page(Page(run(comtrade, "page", *names)[1]), show, rows)
    else:
        seen["compared in all"] += 1
        yield from of_times(comtrade, names, show, rows, csv, chance, folder)
    yield from with_import(comtrade, record, names, rows, keys, folder, show)
