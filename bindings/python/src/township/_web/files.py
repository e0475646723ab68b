"""The text of a file that was opened in the page, decoded as `batch` decodes lists."""
from __future__ import annotations

import base64
import binascii
import io
import re
from typing import Tuple, cast

from .._batch.decoding import Counted, Decoded, is_another_format
from .given import Given, Invalid
from .refusals import Json

#: The encodings that a file may have if it has no byte order mark, in the order in which they are tried.
_ENCODINGS = ("utf-8", "windows-1252")

#: A byte that is no character in the encoding, as Python has it.
_UNDECODED = re.compile("[\udc80-\udcff]")


def file_answer(body: bytes) -> Json:
    """Answer with the text of a file, and with the encoding that it was found to have."""
    given = Given(body, {"data"})
    try:
        data = base64.b64decode(given.text("data"), validate=True)
    except (binascii.Error, ValueError) as error:
        raise Invalid("the field `data` must be a file in base64") from error
    if is_another_format(_counted(data)):
        raise Invalid("this file is a workbook or a document; save it as CSV")
    text, encoding = _decoded(data)
    return {"text": text, "encoding": encoding}


def _decoded(data: bytes) -> Tuple[str, str]:
    """Return the text of a file. It is UTF-8 or UTF-16, or else Windows-1252, which old spreadsheets write."""
    for encoding in _ENCODINGS:
        decoded = Decoded(_counted(data), encoding)
        text = "".join(iter(decoded.read, ""))
        if not _UNDECODED.search(text):
            return text, decoded.encoding
    # Some bytes are no characters in Windows-1252 either. They stay what they are, and are refused where they are used.
    return text, decoded.encoding


def _counted(data: bytes) -> Counted:
    return Counted(cast(io.FileIO, io.BytesIO(data)))
