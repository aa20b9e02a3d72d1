"""What a test module is, and where all of them are: tests/modules/*.py, each
with a list MODULES."""
import importlib.util
import os
from collections import namedtuple

import paths

FOLDER = os.path.join(paths.ROOT, 'tests', 'modules')

# stream: the records. calls: lines such as 'add 1 2 = 3', see run_modules.py.
# features: of the engines. expect: the module's bytes, where no engine here
# knows the features. otherwise: what wabt's writer is known to write in another
# form, if anything.
Module = namedtuple('Module', 'name stream calls features expect otherwise')


def module(name, *fields, calls='', features=(), expect=None, otherwise=None):
    """A test module; `calls` is a text of lines."""
    lines = [line.strip() for line in calls.strip().splitlines()]
    return Module(name, b''.join(fields), lines, tuple(features), expect and bytes.fromhex(expect), otherwise)


def all_modules():
    """All of them, with the file in their name."""
    for file in sorted(os.listdir(FOLDER)):
        if file.endswith('.py'):
            where = importlib.util.spec_from_file_location('modules_' + file[:-3], os.path.join(FOLDER, file))
            loaded = importlib.util.module_from_spec(where)
            where.loader.exec_module(loaded)
            for one in loaded.MODULES:
                yield one._replace(name='%s: %s' % (file[:-3], one.name))
