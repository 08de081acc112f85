"""Explains with the program the traces that the player plays, seeded ones with other seeds, and holds every line to the model's: the answer, whom it
names and how that one owns the instrument."""

import sys

import reasons_model
from play_traces import Held

SEEDS = range(11, 13)


def main():
    held = Held(sys.argv[1], reasons_model.explain)
    held.all(SEEDS)
    held.conclude("explain")


main()
