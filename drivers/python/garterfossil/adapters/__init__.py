"""What turns XA's calls into a database's own statements: a module for each kind of database, imported where it is used."""
