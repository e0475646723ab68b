"""`python -m township batch`: adds to a list of descriptions the acreage, or the refusal, of each.

A list goes through these modules: `source` opens it, `decoding` decodes its bytes, `separators` finds the heading and
the character between its fields, `columns` finds the columns that are used, and `chunks` divides the rest into chunks
of some thousand records. `answered` answers a chunk: `plain` finds its records in the text, or, if they are not plain,
`rows` reads them by the `csv` module, and `records` finds what is wrong with them; `plats` finds the plats and the lot
tables of the records, which `files` and `folder` read, and `dates` those of a date; `answers` answers all of them that
are on one plat together; `headed_answers` answers records that begin with their townships, and adds up the acreage of
those that have several. `added` contains the fields that are added to a record, and `sinks` writes them. With several
processes, `workers` has chunks answered by them. The records of a workbook are read by `workbook`, and written by
`workbook_sink`; those of a Parquet file are read by `parquet`. `running` puts all this together.
"""
from __future__ import annotations

from .options import Options
from .running import run_batch
from .stopped import Status, Stopped

__all__ = ["Options", "Status", "Stopped", "run_batch"]
