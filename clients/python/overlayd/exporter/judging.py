"""Whether entries of a manifest are such as overlayd takes, as far as an export relies on it."""

from typing import Any, Dict, List, Optional

from ..importer import limits
from ..importer.checking import path_fault
from ..importer.telling import shown
from .unsayable import Unsayable

_TYPES = {"path": str, "kind": str, "mode": int, "uid": int, "gid": int, "attrs": list,
          "text": str, "hex": str, "zeros": int, "blob": int, "at": int, "size": int, "to": str,
          "target": str, "opaque": bool, "redirect": str}
_MOST = {"mode": limits.MODE_BITS, "uid": limits.OWNER_MOST, "gid": limits.OWNER_MOST}
_NEEDS = {"symlink": "target", "link": "to"}
_DIGITS = "0123456789abcdef"


def judge(path: str, entry: Any) -> None:
    """Refuses an entry of the manifest at a path by its first fault."""
    fault = _fault(entry)
    if fault is not None:
        at = shown(entry["path"]) if isinstance(entry, dict) and isinstance(
            entry.get("path"), str) else "an entry"
        raise refusal(path, f"{at}: {fault}")


def refusal(path: str, what: str) -> Unsayable:
    """What is said of a manifest that overlayd doesn't take."""
    return Unsayable(f"{shown(path)}: a manifest that overlayd doesn't take: {what}")


def _fault(entry: Any) -> Optional[str]:
    if not isinstance(entry, dict) or "path" not in entry or "kind" not in entry:
        return "path or kind is missing"
    for key, value in entry.items():
        if type(value) is not _TYPES.get(key):  # True is an int to isinstance
            return f"{shown(str(key))}: no such key, or of another type"
    for key in ("path", "to"):
        if key in entry and path_fault(entry[key]) is not None:
            return f"{key}: no path"
    return _value_fault(entry) or _attribute_fault(entry.get("attrs", []))


def _value_fault(entry: Dict[str, Any]) -> Optional[str]:
    for key, most in _MOST.items():
        if not 0 <= entry.get(key, 0) <= most:
            return f"{key}: from 0 to {most}"
    if min(entry.get(key, 0) for key in ("zeros", "blob", "at", "size")) < 0:
        return "a number below 0"
    needed = _NEEDS.get(entry["kind"])
    if needed is not None and not entry.get(needed):
        return f"{needed} is missing"
    redirect = entry.get("redirect")
    if redirect is not None and limits.redirect_of(redirect.encode("utf-8")) is None:
        return "redirect: none that a directory has"
    digits = entry.get("hex", "")
    if len(digits) % 2 or digits.strip(_DIGITS):
        return "hex: two lower case digits for each byte"
    return None


def _attribute_fault(pairs: List[Any]) -> Optional[str]:
    for pair in pairs:
        if not (isinstance(pair, list) and len(pair) == 2
                and all(isinstance(part, str) for part in pair)):
            return "attrs: arrays of two texts"
        if limits.attribute_fault(pair[0].encode("utf-8"), pair[1].encode("utf-8")) is not None:
            return "attrs: no attribute that an object has"
    return None
