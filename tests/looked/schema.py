"""A validator of JSON Schema draft 4 (draft-zyp-json-schema-04, draft-fge-json-schema-validation-00), with the keywords that the
schema of SARIF uses. It refuses a schema that has another keyword, type or format, so nothing is passed over."""
import re
from datetime import datetime

TYPES = {
    "array": lambda value: isinstance(value, list),
    "boolean": lambda value: isinstance(value, bool),
    "integer": lambda value: isinstance(value, int) and not isinstance(value, bool),
    "null": lambda value: value is None,
    "number": lambda value: isinstance(value, (int, float)) and not isinstance(value, bool),
    "object": lambda value: isinstance(value, dict),
    "string": lambda value: isinstance(value, str),
}
# Characters of a path (RFC 3986, 3.3), and what is behind the scheme: an authority and a path, or a path, a query, a fragment.
PCHAR = r"(?:[A-Za-z0-9._~!$&'()*+,;=:@-]|%[0-9A-Fa-f]{2})"
BEHIND = rf"(?://(?:{PCHAR}|[\[\]])*(?:/{PCHAR}*)*|(?!//)(?:{PCHAR}|/)*)(?:\?(?:{PCHAR}|[/?])*)?(?:#(?:{PCHAR}|[/?])*)?"
URI = rf"[A-Za-z][A-Za-z0-9+.-]*:{BEHIND}"
DATE_TIME = r"\d{4}-\d\d-\d\dT\d\d:\d\d:\d\d(?:\.\d+)?(?:Z|[+-]\d\d:\d\d)"


def is_date_time(value):
    """Whether a text is a date and a time of RFC 3339."""
    if not re.fullmatch(DATE_TIME, value, re.ASCII):
        return False
    try:
        datetime.strptime(value[:19], "%Y-%m-%dT%H:%M:%S")
    except ValueError:
        return False
    return True


FORMATS = {
    "date-time": is_date_time,
    "uri": lambda value: bool(re.fullmatch(URI, value)),
    "uri-reference": lambda value: bool(re.fullmatch(rf"{URI}|(?![^/?#]*:){BEHIND}", value)),
}


def same(value):
    """A key that two values share if they are equal in JSON: numbers by their value, members in any order."""
    if isinstance(value, dict):
        return "object", frozenset((name, same(member)) for name, member in value.items())
    if isinstance(value, list):
        return "array", tuple(map(same, value))
    return isinstance(value, bool), value


def each_value(keyword, judge, kind):
    """A keyword that judges the values of one type, and passes all others."""
    return lambda schema, value: not TYPES[kind](value) or judge(schema[keyword], value)


# The keywords that judge a value by itself: the schema and the value give whether it is right.
JUDGES = {
    "type": lambda schema, value: any(TYPES[kind](value) for kind in kinds_of(schema)),
    "enum": lambda schema, value: same(value) in [same(one) for one in schema["enum"]],
    "minimum": each_value("minimum", lambda least, value: value >= least, "number"),
    "maximum": each_value("maximum", lambda most, value: value <= most, "number"),
    "pattern": each_value("pattern", lambda pattern, value: bool(re.search(pattern.replace("$", r"\Z"), value)), "string"),
    "format": each_value("format", lambda form, value: FORMATS[form](value), "string"),
    "minItems": each_value("minItems", lambda least, value: len(value) >= least, "array"),
    "uniqueItems": each_value("uniqueItems", lambda unique, value: not unique or len(set(map(same, value))) == len(value), "array"),
}
# The keywords that hold further schemas, and those that say something to a reader alone.
HOLDING = {"items", "properties", "additionalProperties", "required", "anyOf", "oneOf", "$ref", "definitions"}
SAYING = {"$schema", "id", "title", "description", "default"}


def kinds_of(schema):
    """The types that a schema takes."""
    return schema["type"] if isinstance(schema["type"], list) else [schema["type"]]


def schemas_in(schema):
    """The schemas that a schema holds."""
    for name in ("properties", "definitions"):
        yield from schema.get(name, {}).values()
    for name in ("anyOf", "oneOf"):
        yield from schema.get(name, [])
    for name in ("items", "additionalProperties"):
        if not isinstance(schema.get(name, True), bool):
            yield schema[name]


def refuse_unknown(schema):
    """Stops at a schema that has what this validator doesn't know, in itself or in one that it holds."""
    if not isinstance(schema, dict):
        raise ValueError(f"no schema: {schema!r}")
    unknown = schema.keys() - JUDGES.keys() - HOLDING - SAYING
    if "$ref" in schema:
        # Draft 4 passes over all that is beside a reference.
        unknown |= schema.keys() - {"$ref", "description"}
    unknown |= {kind for kind in kinds_of(schema) if kind not in TYPES} if "type" in schema else set()
    unknown |= {schema["format"]} - FORMATS.keys() if "format" in schema else set()
    if unknown or re.search(r"\\|[$](?!\Z)|\(\?", schema.get("pattern", "").replace(r"\.", "")):
        raise ValueError(f"not known: {sorted(unknown) or schema['pattern']}")
    for held in schemas_in(schema):
        refuse_unknown(held)


class Validator:
    """A schema, in which references are looked up."""

    def __init__(self, schema):
        refuse_unknown(schema)
        self.schema = schema

    def named(self, reference):
        """The schema that a reference names: the whole one, or one of its definitions."""
        if reference == "#":
            return self.schema
        before, _, name = reference.rpartition("/")
        if before != "#/definitions":
            raise ValueError(f"not known: {reference}")
        return self.schema["definitions"][name]

    def faults(self, value, schema=None, path="log"):
        """What is wrong with a value and what is in it, each with its path."""
        schema = self.schema if schema is None else schema
        if "$ref" in schema:
            return self.faults(value, self.named(schema["$ref"]), path)
        found = [f"{path}: {name}" for name, judge in JUDGES.items() if name in schema and not judge(schema, value)]
        for name, right in (("anyOf", lambda count: count > 0), ("oneOf", lambda count: count == 1)):
            if name in schema and not right(sum(not self.faults(value, one, path) for one in schema[name])):
                found.append(f"{path}: {name}")
        if isinstance(value, list) and "items" in schema:
            for number, item in enumerate(value):
                found += self.faults(item, schema["items"], f"{path}[{number}]")
        return found + (self.member_faults(value, schema, path) if isinstance(value, dict) else [])

    def member_faults(self, value, schema, path):
        """What is wrong with the members of an object."""
        found = [f"{path}: no {name}" for name in schema.get("required", []) if name not in value]
        known, others = schema.get("properties", {}), schema.get("additionalProperties", True)
        for name, member in value.items():
            if name in known or not isinstance(others, bool):
                found += self.faults(member, known.get(name, others), f"{path}.{name}")
            elif not others:
                found.append(f"{path}: another property {name}")
        return found
