"""What the schemas of this repository accept. Where python3-jsonschema isn't there, `jsonschema` is None, and nothing can be asked."""
import json

from shared import programs

try:
    import jsonschema
except ImportError:
    jsonschema = None


def path_of(name):
    """Where the schema of this name stands."""
    return programs.TOP / "schemas" / f"{name}.schema.json"


def validator(name):
    """What tells the errors of a value by the schema of this name; an error where that is none."""
    schema = json.loads(path_of(name).read_text())
    kind = jsonschema.validators.validator_for(schema)
    kind.check_schema(schema)
    return kind(schema)
