"""What SARIF 2.1.0 (OASIS, 'Static Analysis Results Interchange Format') demands of a log: its schema, and what that doesn't say of
the parts that `ebpf check` writes. sarif-schema-2.1.0.json is the schema of OASIS Open (errata 01), unchanged, as Debian has it in
gcc-15 15.3.0, gcc/testsuite/lib; OASIS Open holds its copyright and lets it be copied."""
import json
import re
from pathlib import Path

from looked.schema import Validator

SCHEMA = Validator(json.loads((Path(__file__).parent / "sarif-schema-2.1.0.json").read_text()))
# A relative path of RFC 3986 without an authority, or an absolute one of the scheme `file`; neither has empty segments.
PATH = re.compile(r"(?:file://(?=/)|(?!/))(?:/?(?:[A-Za-z0-9._~-]|%[0-9A-F]{2})+)+")


def result_faults(result, rules):
    """What is wrong with a result: the rule that it names (3.27.5 to 3.27.7), and the paths of its locations (3.4.3)."""
    index = result.get("ruleIndex", -1)
    if index not in range(len(rules)) or rules[index]["id"] != result.get("ruleId"):
        yield f"no rule {index} of this name"
    for location in result.get("locations", []):
        uri = location["physicalLocation"]["artifactLocation"]["uri"]
        if not PATH.fullmatch(uri):
            yield f"no path: {uri}"


def faults(log):
    """What is wrong with a log."""
    found = SCHEMA.faults(log)
    if found:
        return found
    runs = log["runs"]
    return [it for run in runs for result in run["results"] for it in result_faults(result, run["tool"]["driver"]["rules"])]
