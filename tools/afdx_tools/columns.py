"""The columns of a report's tables, so that a CSV file without rows has its head too."""
from __future__ import annotations

from typing import Collection, Iterator

Row = dict

SUMS = "frames accepted dropped full_buffer late too_old departed delivered redundant refused"
SPREAD = "frames least_ns median_ns p99_ns p99.9_ns greatest_ns"
FRAME = "link side number time_ns line"
# `switch` stands in a report of several switches a side alone
COLUMNS = {
    "silences": "silent link system side from_ns until_ns for_ns bags bag_ms on_other_side "
                "last_line next_line",
    "dropped": "link side reason frames switch came_in system own_port own_system address from_ns "
               "until_ns first_line",
    "arrivals": "link side",
    "links": "link frames accepted dropped reasons full_buffer late too_old departed delivered "
             "redundant refused refusals",
    "latency": f"link from switch port system side priority {SPREAD} at_line at_ns bound_ns "
               "configured_ns margin_ns share late",
    "frames": f"{FRAME} switch port system latency_ns bound_ns configured_ns share",
    "sides": f"link side {SUMS} alone first_number first_line missing missing_line jumps "
             "least_gap_ns gap_line bag_ns jitter_ns jitter_line table_jitter_ns",
    "skews": "link pairs at_inputs_ns inputs_line inputs_side at_receivers_ns receivers_line "
             "receivers_side table_skew_ns twice",
    "clocks": "system pairs quarter_ns median_ns three_quarters_ns at_begin_ns at_end_ns clock",
    "ports": "switch port system side left load peak_load backlog at_ns bound buffer",
    "troubles": f"{FRAME} switch port what came_in",
    "where": "recording number interface name stamp epoch",
    "early": "link side count median greatest",
    "compared": "table of number other this change",
    "ways": f"link from switch port system side priority {SPREAD} at_line at_ns hops_ns slowest "
            "bound_ns configured_ns promised_ns margin_ns share late",
    "receivers": "link from switch port system frames once twice never redundant refusals skew_ns "
                 "skew_line skew_side table_skew_ns",
    "switches": "switch side from_systems over_cables accepted dropped reasons full_buffer late "
                "too_old to_systems to_cables",
    "lines": "from to switch port rate links contract load_A load_B",
    "streams": "link from switch port system side priority came left stopped strange passed "
               "late early frames least_ns median_ns p99_ns greatest_ns greatest_line bound_ns "
               "margin_ns configured_ns share",
    "deviations": "what list line time_ns link side port system reason by_ns by_numbers",
    "groups": "findings what reason link side port system first_line by_ns words",
    "senders": "link system switch port networks frames sent amiss unlawful number soon soon_by_ns "
               "differs apart apart_by_ns single reasons",
    "sender_deviations": "what line time_ns link side port system reason by_ns wanted",
    "premises": "premise found holds",
    "idle": "link from switch port system side came",
    "options": "option value given reason",
    "stamps": "side port way frames step_ns nearest_ns bunched_ns",
    "offsets": "side came_port left_port frames least_ns tenth_ns median_ns nine_tenths_ns "
               "greatest_ns over_latency slope_ppm",
    "unseen": "link from switch port system side lacks",
}  # fmt: skip
# what stands behind them where a table names frames of a recording
STAMPS = {
    "frames": "interface stamp",
    "troubles": "interface stamp",
    "deviations": "interface name stamp",
    "sender_deviations": "interface name stamp",
}
RECORDED = ("where", "unseen")  # the tables that reports on recordings have alone
SWITCH = "switch"  # of several switches a side which one a port is at
BEHIND_LINK = "message"  # what a link is called, where that is known


def has_column(report: Row, column: str) -> bool:
    """A row of some table of a report has that column."""
    tables = [report[name] for name in COLUMNS if isinstance(report.get(name), list)]
    tables += [report["arrivals"]["links"]] if "arrivals" in report else []
    return any(column in rows[0] for rows in tables if rows)


def found_columns(name: str, report: Row, known: Collection[str]) -> Iterator[str]:
    """The columns of a table of a report."""
    is_several = SWITCH in known or "switches" in report
    is_named = BEHIND_LINK in known or has_column(report, BEHIND_LINK)
    for column in COLUMNS[name].split():
        if column != SWITCH or is_several:
            yield column
        if column == "link" and is_named:
            yield BEHIND_LINK
    if any(table in report for table in RECORDED):
        yield from STAMPS.get(name, "").split()


def columns_of(name: str, report: Row, known: Collection[str] = ()) -> list[str]:
    """The columns of a table; none of a table that isn't known. `known` are those that rows of this
    report have, besides what the report shows itself."""
    return list(found_columns(name, report, known)) if name in COLUMNS else []
