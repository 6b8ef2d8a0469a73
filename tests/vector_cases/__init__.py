"""The cases of vectors/*.json, a module for each file. The reference alone makes them, and never the kit. Each case says which answer it is for: where the
reference gives another, nothing is written."""
