"""Planners' models in Python, solved by `dypdl_solve`.

`import dypdl.didppy as dp` gives the API of DIDPPy: a model is built by Python calls, written as YAML-DyPDL, and handed to the program. Nothing
here searches, and nothing here is proved; what the program answers, it answers of the text that was written. docs/PYTHON.md has the rest.
"""

__version__ = "1.0"
