"""Tests of the validator: logs with a fault that the schema of SARIF refuses, and schemas that the validator doesn't know in full."""
import copy
import json

from looked.sarif import SCHEMA
from looked.schema import Validator

GUID = "0e8f2b5a-3c1d-4e6f-8a9b-0c1d2e3f4a5b"
# A log with what `ebpf check` doesn't write too, which has no fault.
GOOD = {
    "$schema": "https://json.schemastore.org/sarif-2.1.0.json",
    "version": "2.1.0",
    "runs": [
        {
            "tool": {"driver": {"name": "tool", "guid": GUID, "dottedQuadFileVersion": "1.2.3.4", "rules": [{"id": "rule"}]}},
            "language": "en-GB",
            "invocations": [{"executionSuccessful": True, "startTimeUtc": "2024-02-29T23:59:59.5Z", "environmentVariables": {"A": "b"}}],
            "results": [
                {
                    "ruleId": "rule",
                    "ruleIndex": 0,
                    "level": "error",
                    "rank": 99.5,
                    "message": {"text": "it breaks"},
                    "workItemUris": ["https://example.org/a%20b?c=d#e"],
                    "locations": [{"physicalLocation": {"artifactLocation": {"uri": "a/b.c"}, "region": {"startLine": 1}}}],
                    "graphTraversals": [{"runGraphIndex": 0}],
                }
            ],
        }
    ],
}
GONE = object()
RUN = ["runs", 0]
RESULT = [*RUN, "results", 0]
PLACE = [*RESULT, "locations", 0, "physicalLocation"]
# The path of a value, what takes its place, and the only fault that this gives.
BAD = [
    (["version"], GONE, "log: no version"),
    (["version"], "2.0.0", "log.version: enum"),
    (["runs"], {}, "log.runs: type"),
    (["more"], 1, "log: another property more"),
    (["$schema"], "sarif-2.1.0.json", "log.$schema: format"),
    (["$schema"], "https://example.org/a b", "log.$schema: format"),
    ([*RUN, "tool"], GONE, "log.runs[0]: no tool"),
    ([*RUN, "tool", "driver", "name"], None, "log.runs[0].tool.driver.name: type"),
    ([*RUN, "tool", "driver", "guid"], GUID[:-1], "log.runs[0].tool.driver.guid: pattern"),
    ([*RUN, "tool", "driver", "guid"], GUID + "\n", "log.runs[0].tool.driver.guid: pattern"),
    ([*RUN, "tool", "driver", "dottedQuadFileVersion"], "1.2.3", "log.runs[0].tool.driver.dottedQuadFileVersion: pattern"),
    ([*RUN, "tool", "driver", "rules"], [{"id": "rule"}, {"id": "rule"}], "log.runs[0].tool.driver.rules: uniqueItems"),
    ([*RUN, "language"], "english", "log.runs[0].language: pattern"),
    ([*RUN, "invocations", 0, "executionSuccessful"], 1, "log.runs[0].invocations[0].executionSuccessful: type"),
    ([*RUN, "invocations", 0, "startTimeUtc"], "2023-02-29T00:00:00Z", "log.runs[0].invocations[0].startTimeUtc: format"),
    ([*RUN, "invocations", 0, "startTimeUtc"], "2024-02-29", "log.runs[0].invocations[0].startTimeUtc: format"),
    ([*RUN, "invocations", 0, "environmentVariables", "A"], 1, "log.runs[0].invocations[0].environmentVariables.A: type"),
    ([*RESULT, "level"], "fatal", "log.runs[0].results[0].level: enum"),
    ([*RESULT, "ruleIndex"], -2, "log.runs[0].results[0].ruleIndex: minimum"),
    ([*RESULT, "ruleIndex"], 0.5, "log.runs[0].results[0].ruleIndex: type"),
    ([*RESULT, "ruleIndex"], False, "log.runs[0].results[0].ruleIndex: type"),
    ([*RESULT, "rank"], 100.5, "log.runs[0].results[0].rank: maximum"),
    ([*RESULT, "message"], {}, "log.runs[0].results[0].message: anyOf"),
    ([*RESULT, "message", "text"], 1, "log.runs[0].results[0].message.text: type"),
    ([*RESULT, "workItemUris", 0], "a/b", "log.runs[0].results[0].workItemUris[0]: format"),
    ([*RESULT, "graphTraversals", 0, "resultGraphIndex"], 0, "log.runs[0].results[0].graphTraversals[0]: oneOf"),
    ([*RESULT, "graphTraversals", 0, "runGraphIndex"], GONE, "log.runs[0].results[0].graphTraversals[0]: oneOf"),
    ([*RESULT, "suppressions"], [{}], "log.runs[0].results[0].suppressions[0]: no kind"),
    ([*RESULT, "codeFlows"], [{"threadFlows": []}], "log.runs[0].results[0].codeFlows[0].threadFlows: minItems"),
    ([*PLACE, "artifactLocation", "uri"], "%0", "log.runs[0].results[0].locations[0].physicalLocation.artifactLocation.uri: format"),
    ([*PLACE, "artifactLocation"], GONE, "log.runs[0].results[0].locations[0].physicalLocation: anyOf"),
    ([*PLACE, "region"], {}, "log.runs[0].results[0].locations[0].physicalLocation.region: anyOf"),
    ([*PLACE, "region", "startLine"], 0, "log.runs[0].results[0].locations[0].physicalLocation.region.startLine: minimum"),
]
# Schemas with what the validator doesn't know.
UNKNOWN = [
    {"allOf": [{}]},
    {"not": {}},
    {"properties": {"a": {"const": 1}}},
    {"definitions": {"a": {"patternProperties": {}}}},
    {"items": [{}]},
    {"items": {"exclusiveMinimum": True}},
    {"additionalProperties": {"maxLength": 1}},
    {"anyOf": [{"dependencies": {}}]},
    {"type": "text"},
    {"type": ["array", "text"]},
    {"type": "string", "format": "email"},
    {"$ref": "#/definitions/a", "required": ["b"]},
    {"pattern": r"\d"},
    {"pattern": "(?=a)"},
    {"pattern": "a$|b"},
]


def changed(path, value):
    """The good log with another value at a path, or without one."""
    log = copy.deepcopy(GOOD)
    held = log
    for step in path[:-1]:
        held = held[step]
    if value is GONE:
        del held[path[-1]]
    else:
        held[path[-1]] = value
    return log


def refused(schema):
    """Whether the validator refuses a schema."""
    try:
        Validator(schema)
    except ValueError:
        return True
    return False


def run(rows):
    """The validator finds no fault in the good log, the only fault of each bad one, and refuses each unknown schema."""
    rows.expect("the schema of SARIF: a good log", SCHEMA.faults(GOOD), [])
    for path, value, fault in BAD:
        rows.expect(f"the schema of SARIF: {fault}", SCHEMA.faults(changed(path, value)), [fault])
    rows.expect("unknown schemas", [json.dumps(schema) for schema in UNKNOWN if not refused(schema)], [])
