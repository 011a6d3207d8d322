"""Models as people have them, rewritten as plain MDL that mdlc reads. This package isn't proved.

Texts of models are held as `str` in which each character stands for one byte (Latin-1), so that names keep their bytes
whatever their encoding.
"""
