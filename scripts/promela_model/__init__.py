"""A configuration as a model for SPIN, written from the definitions in crates/*/specs and not from the sources of the programs."""
