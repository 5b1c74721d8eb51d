"""Converts applications in the XML of IEC 61499-2 to texts of the simulator (docs/IMPORT.md)."""
