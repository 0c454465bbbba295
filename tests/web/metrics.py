"""The text of /metrics: its samples, its types, and what Prometheus' own reader says of it.

A sample is named as its line names it: `ringd_groups`, or `ringd_members{group="a"}`.
"""

import re
import subprocess

import debian
from serving import PATIENCE, Differs, same

HEADING = re.compile(r"# (HELP|TYPE) (\w+) (.+)")
SAMPLE = re.compile(r'((\w+)(?:\{\w+="[a-z0-9-]+"\})?) ([0-9]+(?:\.[0-9]{6})?)')
OF_GROUP = ("ringd_members", "ringd_term", "ringd_leader", "ringd_informed")
JOURNAL = ("ringd_journal_bytes", "ringd_journal_syncs_total", "ringd_journal_sync_seconds_total")
NAMES = ("ringd_groups", "ringd_entries_total", "ringd_clients", "ringd_clients_limit", "ringd_failed_accepts_total",
         "ringd_refusals_total", "process_resident_memory_bytes")
REFUSALS = ("bad-line", "no-group", "exists", "group-limit", "member", "not-member", "ring-full", "empty", "term-limit",
            "no-term", "not-in-term", "one-way", "no-memory", "seat-spent")


def of(name, label, value):
    """The name of a sample with a label."""
    return f'{name}{{{label}="{value}"}}'


def samples_in(text):
    """The samples by their names. Each metric has its heading before its samples, and each sample is there once."""
    heads, samples, last = {}, {}, None
    for line in text.splitlines():
        if heading := HEADING.fullmatch(line):
            word, last, rest = heading.groups()
            heads.setdefault(last, []).append((word, rest))
            continue
        sample = SAMPLE.fullmatch(line)
        if not sample or sample[2] != last or sample[1] in samples:
            raise Differs(f"a sample out of place: {line}")
        samples[sample[1]] = float(sample[3]) if "." in sample[3] else int(sample[3])
    for name, lines in heads.items():
        same(f"the heading of {name}", [word for word, _ in lines], ["HELP", "TYPE"])
        same(f"the type of {name}", lines[1][1], "counter" if name.endswith("_total") else "gauge")
    return samples


def metrics_of(samples):
    """The names of the metrics that have a sample, without those of groups."""
    return {name.partition("{")[0] for name in samples} - set(OF_GROUP)


def check_names(samples, campaigns, journal):
    """There is each metric, each port and each refusal, and nothing else."""
    same("the metrics", metrics_of(samples), {*NAMES, *(JOURNAL if journal else ())})
    ports = ["sessions", "http", *(["campaigns"] if campaigns else [])]
    wanted = [of(name, "port", port) for name in ("ringd_clients", "ringd_clients_limit") for port in ports]
    wanted += [of("ringd_refusals_total", "refusal", word) for word in REFUSALS]
    same("the samples with labels", {it for it in samples if "{" in it and 'group="' not in it}, set(wanted))


def of_groups(samples):
    """The samples of groups."""
    return {name: value for name, value in samples.items() if name.partition("{")[0] in OF_GROUP}


def install():
    """Installs Prometheus' own reader if it is missing. Clients that are connected meanwhile may be let go as silent."""
    debian.install(["promtool"], ["prometheus"], "no metric was read by promtool")


def check_lint(text):
    """Prometheus' own reader has nothing to say."""
    ran = subprocess.run(["promtool", "check", "metrics"], input=text, capture_output=True, timeout=PATIENCE)
    same("promtool check metrics", (ran.returncode, ran.stdout + ran.stderr), (0, b""))
