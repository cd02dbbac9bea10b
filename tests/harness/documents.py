"""Saved documents of both formats, good and bad."""

import key_rows
from harness.running import EMPTY

PLACES = {1: b'"index":"%s","parent":%s', 2: b'"place":{"index":"%s","parent":%s}'}


def record(form, number, index=b"a0", parent=b"null"):
    """A group as a record of a format."""
    return (b'{"hidden":false,"id":%d,' % number + PLACES[form] % (index, parent)
            + b',"pose":{"dx":0,"dy":0,"flip":false,"quarter":0},"shape":{"kind":"group"}}')


def document(form, number, *records):
    return b'{"format":%d,"next":%d,"shapes":[%s]}' % (form, number, b",".join(records))


def groups(form, count):
    """A document of groups on the page."""
    return document(form, count + 1, *(record(form, k + 1, key_rows.fresh(k).encode()) for k in range(count)))


NO_JSON, BAD_FORMAT, BAD_RECORD, BAD_TREE = b"50 BadJson", b"60 BadFormat", b"61 BadRecord", b"62 BadTree"


def bad_documents():
    """Texts that don't open, with what the program says."""
    yield "an end too early", NO_JSON, b"{"
    yield "no members", BAD_FORMAT, b"{}"
    for form in (b"3", b"0", b"-1", b"2.0", b'"2"', b"null"):
        yield f"format {form.decode()}", BAD_FORMAT, EMPTY.replace(b"2", form, 1)
    yield "4,097 records in format 1", BAD_FORMAT, groups(1, 4097)
    yield "16,385 records in format 2", BAD_FORMAT, groups(2, 16_385)
    yield "16,385 records in format 2, the first of which is none", BAD_FORMAT, groups(2, 16_385).replace(b'"a0"', b'"a00"', 1)
    yield "a place in format 1", BAD_RECORD, document(1, 2, record(2, 1))
    yield "index and parent beside the id in format 2", BAD_RECORD, document(2, 2, record(1, 1))
    for name, old, new in [
        ("an index beside the place", b'"pose"', b'"index":"a0","pose"'),
        ("a parent beside the place", b'"pose"', b'"parent":null,"pose"'),
        ("a place without index", b'"index":"a0",', b""),
        ("a place without parent", b',"parent":null', b""),
        ("a place with one member more", b'"index"', b'"id":1,"index"'),
        ("a place that is no object", b'{"index":"a0","parent":null}', b'"a0"'),
    ]:
        yield name, BAD_RECORD, document(2, 2, record(2, 1).replace(old, new))
    for form in (1, 2):
        for what, code, bad in [
            ("a bad index", BAD_RECORD, record(form, 2, b"a00")),
            ("a parent that is not there", BAD_TREE, record(form, 2, b"a1", b"9")),
            ("a place twice", BAD_TREE, record(form, 2)),
            ("an id twice", BAD_TREE, record(form, 1, b"a1")),
        ]:
            yield f"{what} in format {form}", code, document(form, 3, record(form, 1), bad)
