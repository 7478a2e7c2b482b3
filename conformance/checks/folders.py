"""Puts the folders of the model and of the vectors on the path of modules."""
import os
import sys

TOP = os.path.dirname(os.path.dirname(os.path.abspath(__file__)))
sys.path += [os.path.join(TOP, it) for it in ("model", "vectors")]
