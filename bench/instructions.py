"""How many instructions each replayer takes for one delivery and for one `who` line.

Valgrind counts the instructions of two schedules, of which the second makes the same lines do more,
or has more lines; the difference is divided by how many deliveries or `who` lines it has more.
"""

import re
import shutil

import measure
import table
import workload

COUNTER = ["valgrind", "--tool=callgrind", "--callgrind-out-file=/dev/null"]


def counted_run(command, lines, replies):
    """Runs over a file of lines; the answer is the number of instructions, and a digest of the replies."""
    log = replies.with_name("valgrind")
    usage = measure.timed_run([*COUNTER, f"--log-file={log}", *command], lines, replies)
    total = re.search(r"Collected : ([0-9]+)", log.read_text())
    if not total:
        raise measure.Failed(f"valgrind gives no count for {command[0]}")
    return int(total[1]), usage.digest


class Counted:
    """One schedule through all replayers: the instructions of each, and what their replies tell of."""

    def __init__(self, contrast, amount, replayers, folder):
        lines, replies = folder / "lines", folder / "replies"
        workload.write_lines(contrast.lines(amount), lines)
        runs = [counted_run(each.command, lines, replies) for each in replayers]
        if len({digest for _, digest in runs}) != 1:
            raise measure.Failed(f"{contrast.name}: not all replayers write the same bytes")
        self.totals = [total for total, _ in runs]
        self.acts = contrast.acts_in(replies)


def row_of(contrast, replayers, folder):
    """Counts both schedules; the answer is the cells of the row."""
    less = Counted(contrast, contrast.less, replayers, folder)
    more = Counted(contrast, contrast.more, replayers, folder)
    acts = more.acts - less.acts
    each = [(many - few) / acts for few, many in zip(less.totals, more.totals)]
    return [contrast.name, f"{acts}", *(f"{value:.1f}" for value in each), *table.ratios(each)]


def print_table(replayers, is_wanted, folder):
    """Prints the table of the rows that are wanted, or that valgrind isn't there."""
    contrasts = [each for each in workload.CONTRASTS if is_wanted(each.name)]
    if not contrasts:
        return
    if not shutil.which(COUNTER[0]):
        print("valgrind isn't there, so no instructions are counted")
        return
    names = [replayer.name for replayer in replayers]
    columns = [("instructions for one", 46), ("counted", 9), *((name, 7) for name in names)]
    printed = table.Table(*columns, *table.ratio_columns(names))
    for contrast in contrasts:
        printed.print_row(row_of(contrast, replayers, folder))
