"""How elements of a map are written: JSON without spaces, in UTF-8."""
import json

_PLAIN = json.JSONEncoder(ensure_ascii=False, separators=(',', ':')).encode
_ESCAPED = json.JSONEncoder(ensure_ascii=True, separators=(',', ':')).encode


def json_bytes(value):
    """A value as JSON. A half of a surrogate pair, which UTF-8 can't hold, stays the escape that it was."""
    try:
        return _PLAIN(value).encode()
    except UnicodeEncodeError:
        return _ESCAPED(value).encode()
