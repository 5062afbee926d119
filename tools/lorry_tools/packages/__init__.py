"""Packages of the program and of the tools."""
