"""Reports of logs that the command wrote: JUnit, pages and JSON. `python -m regrun junit|page|json` calls them."""
