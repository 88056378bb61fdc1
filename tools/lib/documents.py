"""TOML documents, for `second-reading`."""
import tomllib


def has_wide(value):
    """Whether an integer that 64 bits don't hold stands in a value."""
    if isinstance(value, dict):
        return any(map(has_wide, value.values()))
    if isinstance(value, list):
        return any(map(has_wide, value))
    return isinstance(value, int) and not -(2**63) <= value < 2**63


def document(content):
    """The document that bytes are, or None. Python takes integers of any size, and TOML those of 64 bits."""
    try:
        found = tomllib.loads(content.decode("utf-8"))
    except (tomllib.TOMLDecodeError, UnicodeDecodeError):
        return None
    return None if has_wide(found) else found
