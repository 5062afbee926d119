"""Measures of proofs, and what is planted into or twice in them."""
