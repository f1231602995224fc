#!/usr/bin/env python3
"""Runs a built `planner` on the samples, and on a faulty file for each cause of a refusal, and tells what differs.

    samples/check.py PROGRAM        such as crates/planner/out/planner

The rows of the samples must be those of crates/planner/stdout and samples/agency/rows.csv, and a city's lines those that stand
here; for each faulty file nothing may be on standard output, and on standard error the line that stands here. A word that is not
UTF-8, a closed standard output and a full one must end as they should, too. Exits 1 where something differs.
"""
import contextlib
import os
import subprocess
import sys
import tempfile

TOP = os.path.dirname(os.path.dirname(os.path.abspath(__file__)))
BASE = "plan base base.gr - 20250303 1000 q.csv"
AGENCY = "plan feed streets.gr streets.co 20250501 500 queries.csv"
CITY = "city 40 12 7"
CITY_LINES = (
    b"vertices 1600\narcs 6240\nstops 120\ntrips 560\nshortcuts 161\nqueries 20\npairs 31\nspans 38\narrivals 2052186\n"
)
HEADS = {
    "stops": "stop_id,location_type,stop_lat,stop_lon",
    "calendar": "service_id,monday,tuesday,wednesday,thursday,friday,saturday,sunday,start_date,end_date",
    "dates": "service_id,date,exception_type",
    "trips": "service_id,trip_id",
    "calls": "trip_id,arrival_time,departure_time,stop_id,stop_sequence",
    "copies": "trip_id,start_time,end_time,headway_secs",
    "queries": "kind,from,to,first,last,trips",
}


def table(head, *rows):
    return "\n".join((HEADS.get(head, head), *rows)) + "\n"


# The file that is put in the place of the sample's, and the line that tells what is wrong with it.
FAULTS = [
    ("base/trips.txt", None, "no file: trips.txt"),
    ("base/calendar_dates.txt", None, "refused: calendar.txt row 0: no calendar"),
    ("base/stops.txt", "name\nA\n", "refused: stops.txt row 0: no column stop_id"),
    ("base/trips.txt", "trip_id\nt1\n", "refused: trips.txt row 0: no column service_id"),
    ("base/stops.txt", b"stop_id\nA\n\xff\n", "refused: stops.txt row 2: not utf-8"),
    ("base/trips.txt", table("trips", "w,t1", "w,"), "refused: trips.txt row 2: empty id"),
    ("base/trips.txt", table("trips", "w,t1", "w," + 256 * "t"), "refused: trips.txt row 2: id of 256 bytes"),
    ("base/stops.txt", "stop_id\nA\nB\nA\n", "refused: stops.txt row 3: repeated"),
    ("base/calendar_dates.txt", table("dates", "w,20250303,1", "w,20250303,2"), "refused: calendar_dates.txt row 2: repeated"),
    ("base/stop_times.txt", table("calls", "t1,08:00:00,,A,1", "t1,08:10:00,,B,1"), "refused: stop_times.txt row 2: repeated"),
    ("base/stop_times.txt", table("calls", "t1,08:00:00,,A,first"), "refused: stop_times.txt row 1: number"),
    ("base/stops.txt", table("stops", "A,5,,"), "refused: stops.txt row 1: number"),
    ("base/calendar_dates.txt", table("dates", "w,20250303,3"), "refused: calendar_dates.txt row 1: number"),
    ("base/stops.txt", table("stops", "A,0,91.0,24.9"), "refused: stops.txt row 1: coordinate"),
    ("base/calendar.txt", table("calendar", "w,1,1,1,1,1,0,0,20250101,20250230"), "refused: calendar.txt row 1: date"),
    ("base/stop_times.txt", table("calls", "t1,08:60:00,,A,1"), "refused: stop_times.txt row 1: time"),
    ("base/stop_times.txt", table("calls", "t9,08:00:00,,A,1"), "refused: stop_times.txt row 1: unknown trip"),
    ("base/frequencies.txt", table("copies", "t9,08:00:00,09:00:00,600"), "refused: frequencies.txt row 1: unknown trip"),
    ("base/stop_times.txt", table("calls", "t1,08:00:00,,X,1"), "refused: stop_times.txt row 1: unknown stop"),
    ("base/stop_times.txt", table("calls", "t1,08:00:00,,A,1", "", "t1,08:10:00,,X,2"), "refused: stop_times.txt row 2: unknown stop"),
    ("base/stop_nodes.txt", "stop_id,node\nX,1\n", "refused: stop_nodes.txt row 1: unknown stop"),
    ("q.csv", table("queries", "at,stop:X,node:4,08:00:00,,2"), "refused: QUERIES row 1: unknown stop"),
    ("base/stops.txt", table("stops", "A,1,,", "B,,,", "C,,,", "D,,,"), "refused: stop_times.txt row 1: not a stop"),
    ("base/stop_times.txt", table("calls", "t1,,,A,1", "t1,08:10:00,,B,2"), "refused: stop_times.txt row 1: no time"),
    ("base/stop_times.txt", table("calls", "t1,08:10:00,,A,1", "t1,08:00:00,,B,2"), "refused: stop_times.txt row 2: time falls"),
    ("base/frequencies.txt", table("copies", "t1,999:50:00,999:59:59,600"), "refused: frequencies.txt row 1: copy until 3600000"),
    ("base/frequencies.txt", table("copies", "t1,08:00:00,09:00:00,0"), "refused: frequencies.txt row 1: number"),
    ("base/frequencies.txt", table("copies", "t1,0:00:00,999:00:00,1"), "refused: trips.txt row 0: limit 3596401"),
    ("base/stop_nodes.txt", "stop_id,node\nA,1\nB,2\nC,3\n", "refused: stops.txt row 4: no place"),
    ("base/stop_nodes.txt", "stop_id,node\nA,5\n", "refused: stop_nodes.txt row 1: vertex 5"),
    ("base/stop_nodes.txt", "stop_id,node\nA,one\n", "refused: stop_nodes.txt row 1: number"),
    ("base.gr", "c streets\np sp 4 1\na 1 2\n", "refused: GR row 3: line"),
    ("base.gr", "c no size\n", "refused: GR row 0: line"),
    ("base.gr", "p sp 0 0\n", "refused: GR row 1: limit 0"),
    ("base.gr", "p sp 4 1\na 0 3 240\n", "refused: GR row 2: vertex 0"),
    ("base.gr", "p sp 4 1\na 2 3 1000001\n", "refused: GR row 2: weight 1000001"),
    ("base.gr", "p sp 4 2\na 2 3 240\n", "refused: GR row 1: count 1"),
    ("base.co", "p aux sp co 3\n", "refused: CO row 1: count 3"),
    ("base.co", "p aux sp co 4\nv 1 0 0\nv 1 0 0\n", "refused: CO row 3: repeated"),
    ("base.co", "p aux sp co 4\nv 1 180000001 0\n", "refused: CO row 2: coordinate"),
    ("base.co", "p aux sp co 4\nv 5 0 0\n", "refused: CO row 2: vertex 5"),
    ("base.co", "v 1 0 0\n", "refused: CO row 1: line"),
    ("base.co", None, "no file: CO"),
    ("q.csv", table("queries", "best,node:1,node:4,08:00:00,,2"), "refused: QUERIES row 1: kind"),
    ("q.csv", table("queries", "by,node:1,node:4,07:00:00,,2"), "refused: QUERIES row 1: unbuilt"),
    ("q.csv", table("queries", "range,node:1,node:4,00:00:00,24:00:00,2"), "refused: QUERIES row 1: window 86401"),
    ("q.csv", table("queries", "range,node:1,node:4,08:00:00,07:59:59,2"), "refused: QUERIES row 1: window 0"),
    ("q.csv", table("queries", "at,home,node:4,08:00:00,,2"), "refused: QUERIES row 1: place"),
    ("q.csv", table("queries", "at,node:1,node:5,08:00:00,,2"), "refused: QUERIES row 1: vertex 5"),
    ("q.csv", table("queries", "at,node:1,node:4,08:00,,2"), "refused: QUERIES row 1: time"),
    ("q.csv", table("queries", "at,node:1,node:4,08:00:00,,17"), "refused: QUERIES row 1: number"),
    ("q.csv", table("queries", *100001 * ["at,node:1,node:4,08:00:00,,2"]), "refused: QUERIES row 0: limit 100001"),
    ("q.csv", 134217729 * b"\0", "refused: QUERIES row 0: file of 134217729 bytes"),
]


def files_in(folder):
    """Returns the files below a folder of the repository, by their names in it."""
    found = {}
    for at, _, names in os.walk(os.path.join(TOP, folder)):
        for name in names:
            path = os.path.join(at, name)
            with open(path, "rb") as file:
                found[os.path.relpath(path, os.path.join(TOP, folder))] = file.read()
    return found


def cases():
    """Returns of each run the words, the files, and what must be on standard output and on standard error."""
    base, agency = files_in("crates/planner/data"), files_in("samples/agency")
    rows = files_in("crates/planner")["stdout"]
    yield BASE, base, rows, b""
    yield AGENCY, agency, agency["rows.csv"], b""
    yield CITY, {}, CITY_LINES, b""
    for name, text, line in FAULTS:
        changed = dict(base)
        changed[name] = text.encode() if isinstance(text, str) else text
        words = BASE.replace("-", "base.co") if name == "base.co" else BASE
        yield words, {it: changed[it] for it in changed if changed[it] is not None}, b"", line.encode() + b"\n"


def run(program, words, files):
    with tempfile.TemporaryDirectory() as folder:
        for name, text in files.items():
            os.makedirs(os.path.dirname(os.path.join(folder, name)), exist_ok=True)
            with open(os.path.join(folder, name), "wb") as file:
                file.write(text)
        done = subprocess.run([program, *words.split()], cwd=folder, capture_output=True, check=False)
    return done.stdout, done.stderr


def ends():
    """Returns how each run ends that no file decides: what it is, the words, where its standard output goes, its exit number and its line."""
    sample = [it.encode() for it in BASE.split()]
    usage = b"usage: planner plan FEED GR CO DATE SCALE QUERIES [BUFFER] |"
    yield "a word that is not UTF-8", [b"plan", b"\xff", *sample[2:]], None, 2, usage
    yield "no word", [], None, 2, usage
    yield "a city of four rows", [b"city", b"4", b"0", b"1"], None, 2, usage
    yield "a full standard output", sample, "/dev/full", 6, b"write fault\n"
    yield "a closed standard output", sample, "closed", 6, b"write fault\n"
    yield "a missing folder", [b"plan", b"none", *sample[2:]], None, 4, b"no file: stops.txt\n"


def end_of(program, words, output):
    """Runs the program over the sample's files, and returns its exit number and what is on standard error."""
    kinds = {None: subprocess.DEVNULL, "closed": None}
    with contextlib.ExitStack() as stack:
        sink = kinds[output] if output in kinds else stack.enter_context(open(output, "wb"))
        close = (lambda: os.close(1)) if output == "closed" else None
        done = subprocess.run(
            [program, *words], cwd=os.path.join(TOP, "crates/planner/data"), stdout=sink, stderr=subprocess.PIPE, check=False, preexec_fn=close
        )
    return done.returncode, done.stderr


def main():
    if len(sys.argv) != 2:
        print(__doc__, file=sys.stderr)
        return 2
    program = os.path.abspath(sys.argv[1])
    all_cases = list(cases())
    differ = 0
    for words, files, rows, line in all_cases:
        out, err = run(program, words, files)
        if (out, err) != (rows, line):
            differ += 1
            print(f"{words}\n  wanted {rows + line!r}\n  got    {out + err!r}")
    all_ends = list(ends())
    for what, words, output, status, line in all_ends:
        found, err = end_of(program, words, output)
        if found != status or not err.startswith(line):
            differ += 1
            print(f"{what}\n  wanted {status} {line!r}\n  got    {found} {err!r}")
    print(f"{len(all_cases) + len(all_ends) - differ} runs as they should be, {differ} not")
    return 1 if differ else 0


if __name__ == "__main__":
    sys.exit(main())
