"""Queries over what the controller knows of requests: filtered here, from results that are fetched in batches."""

from __future__ import annotations

from typing import Any, Callable, Dict, List, Optional, Sequence

from .tasks import Outcome
from .wire import moment

FIELDS = ("msg_id", "header", "metadata", "submitted", "started", "completed", "received", "engine_uuid", "result_header",
          "result_metadata", "result_content", "stdout", "stderr")
"""The fields of a record. `buffers` and `result_buffers` come where they are asked for."""

_COMPARISONS: Dict[str, Callable[[Any, Any], bool]] = {
    "$lt": lambda a, b: a is not None and a < b,
    "$lte": lambda a, b: a is not None and a <= b,
    "$gt": lambda a, b: a is not None and a > b,
    "$gte": lambda a, b: a is not None and a >= b,
    "$ne": lambda a, b: a != b,
    "$eq": lambda a, b: a == b,
    "$in": lambda a, b: a in b,
    "$nin": lambda a, b: a not in b,
}


def matches(query: Dict[str, Any], record: Dict[str, Any]) -> bool:
    """Whether a record matches. ValueError for an operator that there isn't."""
    for name, wanted in query.items():
        if name == "$and":
            met = all(matches(it, record) for it in wanted)
        elif name == "$or":
            met = any(matches(it, record) for it in wanted)
        else:
            met = _meets(record.get(name), wanted)
        if not met:
            return False
    return True


def _meets(value: Any, wanted: Any) -> bool:
    if not (isinstance(wanted, dict) and any(str(it).startswith("$") for it in wanted)):
        return bool(value == wanted)
    for name, bound in wanted.items():
        if name not in _COMPARISONS:
            raise ValueError(f"a query has no operator {name}")
        if not _COMPARISONS[name](value, bound):
            return False
    return True


def of_ids(query: Dict[str, Any]) -> Dict[str, Any]:
    """The part of a query that the controller can look at: that of ids."""
    wanted = query.get("msg_id")
    if isinstance(wanted, str):
        return {"msg_id": wanted}
    if isinstance(wanted, dict) and set(wanted) == {"$in"} and len(wanted["$in"]) <= 4096:
        return {"msg_id": {"$in": list(wanted["$in"])}}
    return {}


def record_of(msg_id: str, outcome: Optional[Outcome]) -> Dict[str, Any]:
    """All that is known of a request, ended or not."""
    if outcome is None:
        return {**dict.fromkeys(FIELDS), "msg_id": msg_id, "buffers": [], "result_buffers": []}
    metadata = outcome.metadata
    completed = moment(metadata.get("completed"))
    return {
        "msg_id": msg_id,
        "header": metadata.get("request"),
        "metadata": {},
        "submitted": moment(metadata.get("submitted")),
        "started": moment(metadata.get("started")),
        "completed": completed,
        "received": completed,
        "engine_uuid": metadata.get("engine"),
        "result_header": {"msg_type": outcome.msg_type},
        "result_metadata": metadata,
        "result_content": outcome.content,
        "stdout": metadata.get("stdout", ""),
        "stderr": metadata.get("stderr", ""),
        "buffers": [],
        "result_buffers": list(outcome.buffers),
    }


def dated(records: List[Dict[str, Any]]) -> List[Dict[str, Any]]:
    """Records in the order of submission, where one without a moment of submission has that of the one before it."""
    before = None
    for it in records:
        it["submitted"] = before = it["submitted"] or before
    return records


def chosen(record: Dict[str, Any], keys: Optional[Sequence[str]]) -> Dict[str, Any]:
    """The fields that are wanted of a record, `msg_id` among them."""
    wanted = FIELDS if keys is None else ("msg_id", *keys)
    return {it: record.get(it) for it in dict.fromkeys(wanted)}
