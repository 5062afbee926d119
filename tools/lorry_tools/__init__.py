"""The library of the tools beside lorry_plan. Nothing in it is proved.

docs/TOOLS.md says what each tool does."""
__version__ = "0.4.15"
