"""The files that `scan --write` makes, each of the captures that may be of one disc, one after the other."""

import argparse
import os
import shutil
from typing import Dict, List, Sequence

from ..join.discs import OneDisc
from ..outside import NAME, say
from ..texts import counted
from ..write.told import SOUNDS
from .faults import fault_text
from .folders import TBC, Task, base_of, files_of, page_names
from .outputs import make_folder
from .parser import Parser, add_settings, settings_in
from .statuses import FAULT
from .write import parser_of_write, write_captures


def write_discs(folder: str, discs: Sequence[OneDisc], tasks: Sequence[Task]) -> Dict[str, int]:
    """Writes a file into this folder of each of these, as far as their sides are TBC files, and says what comes of it.
    The answer has the status of its file for each side of which one was to be written."""
    by_path = {task.path: task for task in tasks}
    groups = [[by_path[side] for side in one.sides if not side.endswith(".json")] for one in discs]
    groups = [group for group in groups if len(group) > 1]
    make_folder(folder)
    names = [os.path.splitext(page)[0] + TBC for page in page_names([("", group[0].name) for group in groups], {})]
    inputs = [file for task in tasks for file in _files_of(task)]
    if groups:
        say("%s: %d MB are free, and about %d MB are needed for %s" % (
            folder, shutil.disk_usage(folder).free // 10 ** 6, -(-sum(map(_size_of, groups)) // 10 ** 6),
            counted(len(groups), "side")))
    statuses = {}
    for name, group in zip(names, groups):
        status = _write(os.path.join(folder, name), group, inputs)
        statuses.update({task.path: status for task in group})
    return statuses


def _write(out: str, group: List[Task], inputs: List[str]) -> int:
    """Writes a file. The answer is its status."""
    def tell(text: str) -> None:
        say(text if text.startswith(out) else "%s: %s" % (out, text))

    settings = [_settings_of(task) for task in group]
    asked = parser_of_write(NAME).parse_args(["--", out, *(task.path for task in group)])
    options = argparse.Namespace(**{**vars(asked), **vars(settings[0])})
    try:
        written = write_captures(options, settings, inputs, tell)
    except (OSError, ValueError) as error:
        tell(fault_text(error))
        return FAULT
    for line in written.lines:
        tell(line)
    return written.status


def _settings_of(task: Task) -> argparse.Namespace:
    """The options by which a side is read."""
    parser = Parser(prog=NAME)
    add_settings(parser)
    return settings_in(parser.parse_args(task.words))


def _files_of(task: Task) -> List[str]:
    """The files of a side, with its sound."""
    sounds = [base_of(task.path) + sound.end for sound in SOUNDS]
    return files_of(task.path) + [sound for sound in sounds if os.path.exists(sound)]


def _size_of(group: List[Task]) -> int:
    """About how many bytes are written of some captures: as many as the largest one has."""
    return max(sum(os.path.getsize(file) for file in _files_of(task)) for task in group)
