"""Edits that put wrong bodies into crates: which there are, whether they apply, and what the prover says of one."""
