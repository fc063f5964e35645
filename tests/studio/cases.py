"""The cases of magbelu.studio: `cases.py NAME` tries one."""

from __future__ import annotations

import sys

import edited
import given
import guard
import looked
import paged
import receiver
import runs
import shown
import turned
import worked

CASES = {
    it.__name__: it
    for it in [
        *guard.CASES, *runs.CASES, *shown.CASES, *turned.CASES, *edited.CASES, *worked.CASES, *receiver.CASES,
        *given.CASES, *looked.CASES, *paged.CASES,
    ]
}

if __name__ == "__main__":
    CASES[sys.argv[1]]()
