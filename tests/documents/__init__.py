"""The documents are compared with the repository that they describe.

Each rule finds faults, which are messages of the form FILE:LINE: TEXT; a test fails if there is any. A block of code,
fenced or indented, needs one of these markers on the line before it:

    <!-- in: PATH -->       its lines stand in this file, which the gate runs; indentation aside
    <!-- run by: PATH -->   this script, which the gate runs, runs the block
    <!-- by hand: WHY -->   commands that the gate doesn't run
    <!-- shown: WHAT -->    no code: a drawing, a grammar, what a command prints

A table after `<!-- figures: NAME -->` is made by bench/pages.py from the measurements.
"""

NEEDS = ()
