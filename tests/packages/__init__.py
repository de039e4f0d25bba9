"""The packages that others install, and where the program is looked for."""
