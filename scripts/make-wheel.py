"""Makes a wheel of the package in the current folder, and prints its name: what scripts/wheel runs by a Python that has
setuptools and wheel.

usage: make-wheel.py DIR"""
import contextlib
import sys

from setuptools import build_meta

with contextlib.redirect_stdout(sys.stderr):
    name = build_meta.build_wheel(sys.argv[1])
print(name)
