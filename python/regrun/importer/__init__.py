"""From a vendor's register file to a description: IP-XACT, CMSIS-SVD, reggen hjson and tables.

`import_file` does what `python -m regrun import FILE` does, and gives the text and the report.
"""

from .choice import Choice
from .errors import SourceError
from .importing import Imported, import_file
from .report import Report
from .shape import Options

__all__ = ["Choice", "Imported", "Options", "Report", "SourceError", "import_file"]
