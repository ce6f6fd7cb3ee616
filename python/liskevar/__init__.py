"""Liskevar from Python: frames in the habits of Polars, SQL, CSV files, run by the proved program.

    import liskevar as lk
    orders, payments = lk.scan_csv("orders.csv"), lk.scan_csv("payments.csv")
    print(orders.join(payments, on=["order", "part"], how="left").sort("amount", descending=True).collect())

The program is proved; nothing in this package is.
"""

from .csv_files import TypeWarning
from .errors import BadWords, JobTooLong, LiskevarError, NotAJob, NotJson, NotOffered, OutOfMemory, PlanError
from .errors import ReadFault, Refused, SqlError, Stopped, TooMany, WriteFault
from .expr import Expr, all_of, any_of, col, lit
from .frame import LazyFrame, concat, from_pandas, from_rows, scan_csv
from .kept import KeptJoin
from .program import find_program, offers
from .recon import Reconciliation, reconcile
from .rows import Rows
from .sql import sql

__version__ = "0.1.0"
__all__ = [
    "BadWords", "Expr", "JobTooLong", "KeptJoin", "LazyFrame", "LiskevarError", "NotAJob", "NotJson", "NotOffered",
    "OutOfMemory", "PlanError", "ReadFault", "Reconciliation", "Refused", "Rows", "SqlError", "Stopped", "TooMany",
    "TypeWarning", "WriteFault", "all_of", "any_of", "col", "concat", "find_program", "from_pandas", "from_rows", "lit",
    "offers", "reconcile", "scan_csv", "sql",
]  # fmt: skip
