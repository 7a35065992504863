"""From a web page to a document: elements, style sheets, the cascade.

It stands outside of the proved program, over html5lib, cssselect2 and tinycss2, and claims nothing that they don't give.
"""
