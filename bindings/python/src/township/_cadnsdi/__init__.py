"""`python -m township lots import`: lot tables from the attribute table of BLM's CadNSDI, as CSV.

The table is that of the second divisions, or of the intersected layer; its columns are those of "PLSS CadNSDI Standard
Domains of Values" and of the FGDC's Cadastral Data Content Standard. It goes through these modules: `columns` finds its
columns, `plss` and `quarters` read the identifiers of townships and quarter-quarters, and `rows` finds what each row
says, or why it cannot be used. `gathering` gathers the rows of each township, since they can be in any order, and
`resolving` finds the lots of a township, and the rows that contradict each other. `dividing` divides a quarter-quarter
among the lots that share it, `tables` writes lot tables, and `importing` puts all this together.
"""
from __future__ import annotations

from .columns import COLUMNS, ColumnName
from .importing import Import, run_import

__all__ = ["COLUMNS", "ColumnName", "Import", "run_import"]
