"""The law tables, one for each country, and what reads them; docs/REAL_ROADS.md says what they
are, and what they are not."""
