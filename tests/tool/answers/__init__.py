"""The answers of `yard` held against the references in tests/, which share no code with the engine.

    run()    maps by hand and by chance through every command; what is printed as JSON is compared with the reference,
             and what is printed as text with the JSON
"""
import sys
import tempfile
import traceback

from harness import check

from answers.checks import run_checks
from answers.found import run_course, run_searches
from answers.given import Folder
from answers.made import run_orders, run_records, run_texts
from answers.pictures import run_drawings


def run():
    for part in (run_course, run_checks, run_searches, run_texts, run_orders, run_records, run_drawings):
        with tempfile.TemporaryDirectory() as name:
            try:
                part(Folder(name))
            except (LookupError, OSError, TypeError, ValueError) as error:
                # An answer of another shape, which is one difference and keeps no other part from being run.
                traceback.print_exc(file=sys.stdout)
                check(f'{part.__name__} runs to its end', repr(error), None)
