"""Tests which posts follow from samples, against what Prometheus's rule manager does."""

from __future__ import annotations

import unittest

from front.capture.posts import KEPT_RESOLVED, Life, Outage, Post, Timing, first_samples_after, life_of, posts_of
from front.moments import SECOND

TIMING = Timing(interval=15 * SECOND, resend_delay=60 * SECOND, hold=0)
FAR = 10_000 * SECOND


def at(*seconds: int) -> list[int]:
    """Returns moments."""
    return [second * SECOND for second in seconds]


def posts(
    firing: list[int], pending: list[int] = [], timing: Timing = TIMING, life: Life | None = None
) -> list[tuple[float, ...]]:
    """Returns the posts in seconds: moment, start and end."""
    life = life or Life(FAR)
    firsts = first_samples_after(life.outages, sorted([*firing, *pending]))
    found = posts_of(firing, pending, timing, life, firsts)
    return [(post.at / SECOND, post.starts_at / SECOND, post.ends_at / SECOND) for post in found]


class Posts(unittest.TestCase):
    def test_an_alert_that_fires_is_posted_again_after_the_resend_delay(self) -> None:
        found = posts(at(*range(1000, 1181, 15)), life=Life(1180 * SECOND))
        # The delay has passed at the first evaluation that is later than 60 seconds after the last post: 75 seconds.
        self.assertEqual(found, [(1000, 1000, 1240), (1075, 1000, 1315), (1150, 1000, 1390)])

    def test_a_slow_group_sets_the_end_by_its_interval(self) -> None:
        timing = Timing(interval=90 * SECOND, resend_delay=60 * SECOND, hold=0)
        found = posts(at(1000, 1090), timing=timing, life=Life(1100 * SECOND))
        self.assertEqual(found, [(1000, 1000, 1360), (1090, 1000, 1450)])

    def test_an_end_is_posted_and_repeated_for_fifteen_minutes(self) -> None:
        found = posts(at(1000, 1015))
        self.assertEqual(found[:2], [(1000, 1000, 1240), (1030, 1000, 1030)])
        self.assertEqual([each[0] for each in found[1:]], list(range(1030, 1031 + KEPT_RESOLVED // SECOND, 75)))
        self.assertEqual({each[2] for each in found[1:]}, {1030})

    def test_a_gap_of_an_evaluation_is_an_end_and_a_new_start(self) -> None:
        found = posts(at(1000, 1015, 1045), life=Life(1045 * SECOND))
        self.assertEqual(found, [(1000, 1000, 1240), (1030, 1000, 1030), (1045, 1045, 1285)])

    def test_a_pending_alert_isn_t_posted_as_resolved_any_longer(self) -> None:
        found = posts(at(1000), pending=at(*range(1060, 1300, 15)))
        self.assertEqual(found, [(1000, 1000, 1240), (1015, 1000, 1015)])

    def test_what_fires_at_the_end_has_no_end(self) -> None:
        self.assertEqual(posts(at(1000, 1015), life=Life(1020 * SECOND)), [(1000, 1000, 1240)])

    def test_a_restart_is_no_end_and_a_new_start_two_evaluations_before_its_first_sample(self) -> None:
        life = Life(1170 * SECOND, [Outage(1050 * SECOND, 1085 * SECOND)])
        found = posts(at(1000, 1015, 1030, 1045, 1135, 1150, 1165), life=life)
        self.assertEqual(found, [(1000, 1000, 1240), (1105, 1105, 1345)])

    def test_what_is_posted_before_the_first_scrape_is_lost(self) -> None:
        life = Life(1170 * SECOND, [Outage(1050 * SECOND, 1110 * SECOND)])
        found = posts(at(1000, 1015, 1030, 1045, *range(1135, 1170, 15), 1180), life=life)
        self.assertEqual(found, [(1000, 1000, 1240), (1180, 1105, 1420)])

    def test_posts_of_the_first_five_seconds_of_a_process_are_lost(self) -> None:
        quick = Timing(interval=2 * SECOND, resend_delay=5 * SECOND, hold=0)
        life = Life(1036 * SECOND, [Outage(1011 * SECOND, 1013 * SECOND)], starts=at(1013))
        found = posts(at(*range(1000, 1011, 2), *range(1018, 1037, 2)), timing=quick, life=life)
        self.assertEqual(
            [each[:2] for each in found], [(1000, 1000), (1006, 1000), (1020, 1014), (1026, 1014), (1032, 1014)]
        )

    def test_after_a_restart_an_alert_with_for_starts_at_its_sample(self) -> None:
        life = Life(1170 * SECOND, [Outage(1050 * SECOND, 1085 * SECOND)])
        timing = Timing(15 * SECOND, 60 * SECOND, hold=30 * SECOND)
        self.assertEqual(
            [each[1] for each in posts(at(1030, 1045, 1135, 1150, 1165), timing=timing, life=life)], [1030, 1135]
        )

    def test_after_a_restart_the_end_isn_t_repeated(self) -> None:
        life = Life(FAR, [Outage(1100 * SECOND, 1185 * SECOND)])
        self.assertEqual([each[0] for each in posts(at(1000), life=life)], [1000, 1015, 1090])

    def test_outages_are_found_by_scrapes_and_starts(self) -> None:
        scrapes = at(*range(0, 101, 10), *range(160, 301, 10))
        life = life_of(scrapes, [], at(105), FAR)
        self.assertEqual([(each.after, each.before) for each in life.outages], [(100 * SECOND, 160 * SECOND)])
        life = life_of(scrapes, at(150), at(105), FAR)
        self.assertEqual([(each.after, each.before) for each in life.outages], [(105 * SECOND, 150 * SECOND)])
        self.assertEqual(life.end, 300 * SECOND)
        quick = life_of(at(*range(0, 301, 10)), at(152), [], FAR)
        self.assertEqual([(each.after, each.before) for each in quick.outages], [(150 * SECOND, 152 * SECOND)])
        self.assertEqual(life_of([], [], at(5), FAR).end, FAR)

    def test_a_sample_of_another_alert_shows_that_the_evaluation_was_made(self) -> None:
        life = life_of(at(*range(0, 51, 10), *range(100, 301, 10)), at(95), at(40, 55, 70), FAR)
        self.assertEqual([post.at for post in posts_of(at(40), [], TIMING, life, set())], at(40, 55))
        self.assertEqual([post.at for post in posts_of(at(40, 55), [], TIMING, life, set())], at(40, 70))
        self.assertEqual([post.at for post in posts_of(at(40, 55, 70), [], TIMING, life, set())], at(40))

    def test_posts_say_whether_they_are_ends(self) -> None:
        found = list(posts_of(at(1000), [], TIMING, Life(1020 * SECOND), set()))
        self.assertEqual(found[1], Post(1015 * SECOND, 1000 * SECOND, 1015 * SECOND, is_resolved=True))


if __name__ == "__main__":
    unittest.main()
