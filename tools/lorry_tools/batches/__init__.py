"""Tables of jobs, planned in parts on many machines."""
