"""That the texts which say limits say those of crates/common/src/limits.rt: the help, FORMATS, README, the headers and Python's module."""
import re


def constants(top):
    """Returns the limits by their names."""
    code = (top / "crates/common/src/limits.rt").read_text()
    return {name: int(number.replace("_", "")) for name, number in re.findall(r"pub const (\w+): usize = ([\d_]+);", code)}


def are_said(top, told):
    """Returns the texts that do not say the limits. `told` gives what a command line prints."""
    most = constants(top)
    cores, events, addresses = most["MAX_CORES"], most["MAX_EVENTS"], most["MAX_ADDRESSES"]
    long = [most[f"MAX_RECORDED_{it}"] for it in ("CORES", "EVENTS", "ADDRESSES")]
    meaning = f"there are more than {cores} cores, {events} events or {addresses} write lists ({long[0]}, {long[1]} or {long[2]} with `--long`)"
    option = f"up to {long[1]} events of {long[0]} cores over {long[2]} addresses"
    readme = f"at most {cores} cores, {addresses} addresses and {events} events; with `--long`,"
    large = f"{long[0]:,} cores, {long[2]:,} addresses and {long[1]:,} events"
    header = {
        "TSOTEST_MAX_CORES": cores,
        "TSOTEST_MAX_EVENTS": events,
        "TSOTEST_MAX_ADDRESSES": addresses,
        "TSOTEST_MAX_LONG_CORES": long[0],
        "TSOTEST_MAX_LONG_EVENTS": long[1],
        "TSOTEST_MAX_LONG_ADDRESSES": long[2],
        "TSOTEST_RECORD_LONG_CORES": long[0],
        "TSOTEST_RECORD_LONG_EVENTS": long[1],
        "TSOTEST_RECORD_LONG_ADDRESSES": long[2],
    }
    defined = {}
    for name in ("tsotest.h", "tsotest_record.h"):
        defined.update(re.findall(r"(?m)^#define (\w+) (\d+)$", (top / "include" / name).read_text()))
    python = (top / "python/tsotest.py").read_text()
    said = {
        "help N4": meaning in told("help", "N4"),
        "docs/FORMATS.md": meaning in (top / "docs/FORMATS.md").read_text(),
        "README.md": all(it in " ".join((top / "README.md").read_text().split()) for it in (readme, large)),
        "include": all(defined.get(name) == str(number) for name, number in header.items()),
        "python": f"MAX_LONG_CORES, MAX_LONG_EVENTS, MAX_LONG_ADDRESSES = {long[0]}, {long[1]}, {long[2]}\n" in python
        and f"MAX_CORES, MAX_EVENTS, MAX_ADDRESSES, MAX_LABEL_BYTES = {cores}, {events}, {addresses}, " in python,
    }
    for command in ("judge", "explain", "draw", "reduce", "verify"):
        said[f"{command} --help"] = " ".join(told(command, "--help").split()).count(option) == 1
    return [text for text, is_said in said.items() if not is_said]
