"""Whether a value fits a JSON Schema, as far as those of scripts/editors need it."""
import re


def is_of(value, schema, whole):
    """Whether a value fits a schema, by the words of JSON Schema that scripts/editors takes."""
    kinds = {"object": dict, "array": list, "string": str, "integer": int}

    def fits(part, it=value):
        return is_of(it, part, whole)

    def word(key, given):
        if key == "$ref":
            return fits(whole["definitions"][given.rsplit("/", 1)[1]])
        if key == "if":
            return fits(schema.get("then" if fits(given) else "else", {}))
        if key in ("enum", "const"):
            return any(type(it) is type(value) and it == value for it in (given if key == "enum" else [given]))
        if key == "type":
            return isinstance(value, kinds[given]) and not isinstance(value, bool)
        if key in ("allOf", "anyOf"):
            return (all if key == "allOf" else any)(map(fits, given))
        if key == "not":
            return not fits(given)
        if isinstance(value, dict):
            if key == "required":
                return set(given) <= set(value)
            if key == "properties":
                return all(fits(part, value[it]) for it, part in given.items() if it in value)
            if key == "additionalProperties":
                rest = [value[it] for it in value if it not in schema.get("properties", {})]
                return all(fits(given, it) for it in rest) if isinstance(given, dict) else given or not rest
        if isinstance(value, list):
            if key in ("minItems", "maxItems"):
                return len(value) >= given if key == "minItems" else len(value) <= given
            if key == "uniqueItems":
                return not given or all(it not in value[:at] for at, it in enumerate(value))
            if key == "items":
                return all(fits(given, it) for it in value)
        if isinstance(value, str):
            if key in ("minLength", "maxLength"):
                return len(value) >= given if key == "minLength" else len(value) <= given
            if key == "pattern":
                return re.search(given, value) is not None
        if isinstance(value, int) and key in ("minimum", "maximum"):
            return value >= given if key == "minimum" else value <= given
        known = "type then else required properties additionalProperties minItems maxItems uniqueItems items minLength " \
            "maxLength pattern minimum maximum $schema title description definitions"
        if key not in known.split():
            raise ValueError(f"{key} is no word of a schema that is known here")
        return True

    return all(word(key, given) for key, given in schema.items())
