"""The page of a run: one file of HTML, in which you step through a trace and see the state of each block."""
