"""A service over HTTP: a trip planner for browsers and for other programs."""
