"""The sessions of bench/ that are measured, with their sizes: one row each, and at half the size it is the same generator's session."""

from typing import Callable, NamedTuple

import growth
import sessions

# The most characters of a description, so that a row of the page is no longer than 120 columns.
WIDEST = 52


class Row(NamedTuple):
    """A session.

    Beside it is what a plain program without proofs takes that writes the same listing, for the very same session: millions of
    instructions, and the most memory in MB. That program is not in this repository. A slow row is counted only where a word asks for it.
    """

    make: Callable[[int], bytes]
    size: int
    plain: float | None = None
    plain_memory: float | None = None
    slow: bool = False

    @property
    def name(self):
        return self.make.__name__

    @property
    def words(self):
        """What it is made of, with its size: the first line of what its generator says."""
        return self.make.__doc__.split("\n")[0].format(self.size)

    @property
    def about(self):
        """All that its generator says."""
        first, *others = self.make.__doc__.split("\n")
        return " ".join([first.format(self.size) + ".", *" ".join(others).split()])

    def text(self):
        return self.make(self.size)

    def half(self):
        return self.make(self.size // 2)


ROWS = [
    Row(sessions.empty, 0),
    Row(sessions.turns, 104_856, 73.0, 3.4),
    Row(sessions.events, 65_535, 10.0, 1.9),
    Row(sessions.past, 7_000_000, 405.9, 2.4),
    Row(sessions.line_feeds, 1_048_577, 27.8, 3.0),
    Row(sessions.rejected, 9_999, 28.2, 3.1),
    Row(sessions.jobs, 6_000, 157.3, 5.5),
    Row(sessions.cards, 10_000, 12.3, 4.2),
    Row(sessions.calls, 10_000, 15.2, 3.5),
    Row(sessions.procedures, 9_995, 42.2, 7.5),
    Row(sessions.overrides, 450),
    Row(sessions.bad_override, 450),
    Row(sessions.bad_overrides, 450),
    Row(sessions.values, 900),
    Row(sessions.bad_value, 900),
    Row(sessions.bad_values, 900),
    Row(sessions.references, 32),
    Row(sessions.most_dds, 2_048, 10.9, 3.3),
    Row(sessions.many_steps, 20, 58.0, 3.3),
    Row(sessions.one_step, 640, 72.6, 3.1),
    Row(sessions.idle, 55_000, 45.1, 3.4),
    Row(sessions.waiting, 2_047, 48.4, 3.3),
    Row(sessions.initiators, 9_999, 240.5, 6.1),
    Row(sessions.one_writer, 4_500, 130.7, 4.4),
    Row(sessions.many_writers, 4_500, 130.6, 4.2),
    Row(sessions.catalogued, 9_999, 341.2, 12.9),
    Row(sessions.small_jobs, 9_999, 357.5, 11.5),
    Row(sessions.unnamed, 480, 410.7, 5.0),
    Row(sessions.fragments, 480, 602.0, 5.1),
    Row(sessions.deleted, 1_046, 338.4, 5.5),
    Row(sessions.long_extents, 1_048_576, 408.7, 9.8),
    Row(sessions.names, 108, 292.9, 4.9),
    Row(sessions.long_names, 1_048_576, 321.5, 5.3),
    Row(sessions.blocked, 65_530, 32.9, 4.5),
    Row(sessions.requests, 4_000, 35.6, 3.6),
    Row(sessions.three_programs, 4_000, 44.5, 4.2),
    Row(growth.procedure_called_often, 2_000, 24.6, 3.5),
    Row(growth.long_procedure, 50_000, 6.9, 3.2),
    Row(growth.calls_with_symbols, 1_000, 7.2, 2.6),
    Row(growth.dd_names, 9_990),
    Row(growth.blank_cards, 1_048_500, 109.4, 115.3),
    Row(growth.data_and_turns, 520_000, 54.5, 58.1),
    Row(growth.blank_procedure, 1_048_500, 55.1, 19.3),
    Row(growth.long_unit, 20_000, 161.8, 2.5),
    Row(growth.unit_in_pieces, 2_000),
    Row(growth.blank_sets, 9, 87.1, 22.6),
    Row(growth.set_records, 2, 27.1, 10.4),
    Row(growth.longest_programs, 40, 37.6, 8.0),
    Row(growth.groups, 52_984, 83.4, 12.3),
    Row(growth.sets, 34_876, 87.4, 16.8),
    Row(growth.units, 60_000, 93.1, 8.2),
    Row(growth.displays, 60_000, 294.5, 2.9),
    Row(growth.puts_to_output, 12, 29.7, 4.5),
    Row(growth.generations, 2_000, 905.8, 3.7),
    Row(growth.places, 32, 18.9, 3.9),
    Row(growth.largest_job, 255, 162.5, 15.9),
    Row(growth.scratched, 6_000, 91.0, 5.3),
    Row(growth.uncatalogued, 6_000, 89.5, 5.4),
    Row(growth.simple_wait_for_space, 10_000, 26.0, 2.7),
    Row(growth.long_wait_for_space, 1_000, 166.6, 2.4),
    Row(growth.wait_with_views, 200, 7.2, 2.5),
    Row(growth.waits_for_space, 300, 173.7, 2.9),
    Row(growth.waits_for_a_name, 60_000, 28.3, 3.9),
    Row(growth.waits_for_the_last_name, 20_000, 84.8, 3.7),
    Row(growth.waits_beside_shared_names, 60_000, 146.7, 5.1),
    Row(growth.longest_wait_for_space, 8, 24.2, 2.6),
    Row(growth.cancelled_last, 2_000),
    Row(growth.many_classes, 32, 6.4, 2.2),
    Row(growth.most_classes, 255, 236.2, 4.4),
    Row(growth.opposite_tests, 300, 365.9, 4.2),
    Row(growth.views_of_old_sets, 20, 476.9, 3.8),
    Row(growth.views_of_no_sets, 20, 431.1, 3.5),
    Row(growth.views_of_unnamed_sets, 20, 473.9, 3.8),
    Row(growth.views_of_both, 20, 478.2, 3.7),
    Row(growth.views_of_few_dds, 40, 868.7, 3.7),
    Row(growth.longest_views, 255, 445.2, 5.5),
    Row(growth.largest_jobs, 8, 144.2, 5.1),
    Row(growth.five_scenes, 21, 39.3, 3.3),
    Row(growth.seven_scenes, 17, 92.9, 3.2),
    Row(growth.nine_scenes, 13, 260.8, 3.2, slow=True),
    Row(growth.passed_scenes, 19, 128.0, 3.2),
    Row(growth.touched_scenes, 21, 37.7, 3.2),
    Row(growth.groups_of_two_pairs, 27, 76.8, 8.8),
    Row(growth.groups_of_four_pairs, 23, 83.2, 8.6),
]

assert all(len(row.words) <= WIDEST for row in ROWS)


def has(row, word):
    return word in row.name or word in row.words


def unknown(words):
    """The words that no row has."""
    return [word for word in words if not any(has(row, word) for row in ROWS)]


def rows_of(words, slow=False):
    """The rows that have one of the words in their name or in their description; without words all, but the slow ones only where asked."""
    if words:
        return [row for row in ROWS if any(has(row, word) for word in words)]
    return [row for row in ROWS if slow or not row.slow]
