"""Writes the case files: cases/statements.txt, files.txt, calls.txt, traces.txt, images.txt, pads.txt, sentences.txt,
outcomes.txt, pairs.txt, load_files.txt, settings.txt, engines.txt and unpacked.txt.

What is expected in them is what model.py answers.  README.md says how to read them.  The same
files come out every time: the only chance numbers are those of a xorshift with fixed seeds.
"""

import os

from call_cases import call_cases
from engine_cases import engine_cases, unpacked_cases
from file_cases import file_cases
from image_cases import image_cases
from load_file_cases import load_file_cases
from pad_cases import pad_cases
from pair_cases import pair_cases
from sentence_cases import outcome_cases, sentence_cases
from settings_cases import settings_cases
from statement_cases import statement_vectors
from trace_cases import trace_cases

FOLDER = os.path.join(os.path.dirname(os.path.abspath(__file__)), "cases")


def make():
    """The case files' texts, by name, and the makers that know what they hold."""
    makers = {"statements.txt": statement_vectors(), "files.txt": file_cases(), "calls.txt": call_cases()}
    makers |= {"traces.txt": trace_cases(), "images.txt": image_cases(), "pads.txt": pad_cases()}
    makers |= {"sentences.txt": sentence_cases(), "outcomes.txt": outcome_cases(), "pairs.txt": pair_cases()}
    makers |= {"load_files.txt": load_file_cases(), "settings.txt": settings_cases()}
    makers |= {"engines.txt": engine_cases(), "unpacked.txt": unpacked_cases()}
    texts = {name: "\n".join(maker.lines) + "\n" for name, maker in makers.items()}
    return texts, makers


def main():
    texts, makers = make()
    os.makedirs(FOLDER, exist_ok=True)
    for name, text in texts.items():
        with open(os.path.join(FOLDER, name), "w", encoding="ascii", newline="\n") as out:
            out.write(text)
        print(f"{name}: {len(makers[name].seen)} answers, {len(text)} bytes")


if __name__ == "__main__":
    main()
