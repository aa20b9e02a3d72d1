"""Where things are. Importing this lets the Python modules of all folders find
each other, from any current folder."""
import os
import sys

TOOLS = os.path.dirname(os.path.abspath(__file__))
ROOT = os.path.dirname(TOOLS)

sys.path[:0] = [os.path.join(TOOLS, folder) for folder in ('models', 'generate', 'compare')]
sys.path[:0] = [os.path.join(ROOT, 'bindings', 'python')]

ASSEMBLE = os.path.join(TOOLS, 'assemble')
DRIVER = os.path.join(TOOLS, 'driver', 'target', 'release', 'driver')
ORACLE = os.path.join(ROOT, 'oracle', 'target', 'release', 'oracle')
