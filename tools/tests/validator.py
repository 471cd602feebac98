"""Whether a value is valid by a JSON Schema, as far as the schemas beside the tools use the language (draft 7)."""

import re

TYPES = {"object": dict, "array": list, "string": str, "integer": int, "boolean": bool}
TOLD = {"$schema", "title", "description", "default", "definitions"}


def same(one, other) -> bool:
    """Equal as JSON: a truth is no number."""
    return one == other and isinstance(one, bool) == isinstance(other, bool)


def is_type(value, name: str) -> bool:
    return isinstance(value, TYPES[name]) and (name == "boolean" or not isinstance(value, bool))


def is_number(value) -> bool:
    return is_type(value, "integer")


def holds(pattern: str, text: str) -> bool:
    """A `$` at the end is the text's own end."""
    return re.search(re.sub(r"\$\Z", r"\\Z", pattern), text, re.ASCII) is not None


def distinct(values: list) -> bool:
    return not any(same(one, other) for k, one in enumerate(values) for other in values[:k])


# A keyword that speaks of values of one type: the type, and whether such a value is as the keyword's argument says.
PLAIN = {
    "required": (dict, lambda value, names: all(name in value for name in names)),
    "minItems": (list, lambda value, count: len(value) >= count),
    "maxItems": (list, lambda value, count: len(value) <= count),
    "uniqueItems": (list, lambda value, wanted: not wanted or distinct(value)),
    "minLength": (str, lambda value, count: len(value) >= count),
    "maxLength": (str, lambda value, count: len(value) <= count),
    "pattern": (str, lambda value, pattern: holds(pattern, value)),
    "dependencies": (dict, lambda value, wanted: all(set(names) <= value.keys() for key, names in wanted.items() if key in value)),
}


class Validator:
    """A schema, whose references lead to its own definitions."""

    def __init__(self, schema: dict):
        self.schema = schema

    def is_valid(self, value) -> bool:
        """Whether the value is valid by the schema."""
        return self.meets(value, self.schema)

    def meets(self, value, schema) -> bool:
        """Whether the value is valid by a part of the schema."""
        if isinstance(schema, bool):
            return schema
        if "$ref" in schema:
            return self.meets(value, self.schema["definitions"][schema["$ref"].removeprefix("#/definitions/")])
        return all(self.keyword(value, word, schema) for word in schema if word not in TOLD)

    def keyword(self, value, word: str, schema: dict) -> bool:
        """Whether the value is as one keyword of a schema says. Raises KeyError for a keyword that isn't known here."""
        given = schema[word]
        if word in PLAIN:
            kind, test = PLAIN[word]
            return not isinstance(value, kind) or test(value, given)
        return getattr(self, f"check_{word.lower()}")(value, given, schema)

    def check_type(self, value, name, _) -> bool:
        return is_type(value, name)

    def check_enum(self, value, among, _) -> bool:
        return any(same(value, it) for it in among)

    def check_const(self, value, wanted, _) -> bool:
        return same(value, wanted)

    def check_minimum(self, value, least, _) -> bool:
        return not is_number(value) or value >= least

    def check_maximum(self, value, most, _) -> bool:
        return not is_number(value) or value <= most

    def check_properties(self, value, parts, _) -> bool:
        return not isinstance(value, dict) or all(self.meets(value[key], part) for key, part in parts.items() if key in value)

    def check_additionalproperties(self, value, part, schema) -> bool:
        known = schema.get("properties", {})
        return not isinstance(value, dict) or all(self.meets(it, part) for key, it in value.items() if key not in known)

    def check_propertynames(self, value, part, _) -> bool:
        return not isinstance(value, dict) or all(self.meets(key, part) for key in value)

    def check_items(self, value, part, _) -> bool:
        """One schema for each entry, or a list of them in turn."""
        if not isinstance(value, list):
            return True
        parts = part if isinstance(part, list) else [part] * len(value)
        return all(map(self.meets, value, parts))

    def check_allof(self, value, parts, _) -> bool:
        return all(self.meets(value, part) for part in parts)

    def check_anyof(self, value, parts, _) -> bool:
        return any(self.meets(value, part) for part in parts)

    def check_oneof(self, value, parts, _) -> bool:
        return sum(self.meets(value, part) for part in parts) == 1

    def check_not(self, value, part, _) -> bool:
        return not self.meets(value, part)

    def check_if(self, value, part, schema) -> bool:
        return self.meets(value, schema.get("then" if self.meets(value, part) else "else", True))

    def check_then(self, *_) -> bool:
        return True

    check_else = check_then
