"""The shell sessions of the documents, in a folder of their own for each page.

storetool has to be where the documents name it, in the folder of its crate.
"""

NEEDS = ("program", "storetool")
