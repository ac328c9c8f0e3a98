"""The area of each team's ground."""

from __future__ import annotations

import random
import unittest

from support import SEED, FrontCase

from lefence.base.description import Box, Description, Facts, Fence, Frame, Obstacle, Row
from lefence.view.team_area import areas_of

FACTS = Facts("t", 1000, "core", 1, 4)


def counted(frame: Frame) -> dict[str, int]:
    """Counts the same point by point."""
    areas = dict.fromkeys(frame.teams, 0)
    for x in range(40):
        for y in range(40):

            def holds(box: Box) -> bool:
                return box.left <= x < box.right and box.bottom <= y < box.top

            if any(holds(row.box) for row in frame.rows) and not any(
                holds(obstacle.box) for obstacle in frame.obstacles
            ):
                areas[next((fence.name for fence in frame.fences if any(map(holds, fence.rects))), "-")] += 1
    return areas


class Ground(FrontCase):
    def test_a_design(self) -> None:
        more = "COMPONENTS 1 ;\n- wall BUF + FIXED ( 7800 6000 ) N ;\nEND COMPONENTS\n"
        self.design.write_text(self.design.read_text().replace("END DESIGN", f"{more}END DESIGN"))
        with Description(self.program, self.design, [self.lef]) as description:
            areas = areas_of(description.frame)
        self.assertEqual(list(areas), description.frame.teams)
        # The wall is 600 by 2000: 200 of its width are in f0, 400 in f1.
        self.assertEqual((areas["f0"], areas["f1"]), (8000 * 8000 - 200 * 2000, 8000 * 8000 - 400 * 2000))
        self.assertEqual((areas["f2"], areas["-"]), (8000 * 8000, 8000 * 8000))

    def test_boxes_that_overlap_anywhere(self) -> None:
        rng = random.Random(f"{SEED} ground")

        def box(left: int, right: int, most: int) -> Box:
            x, y = rng.randrange(left, right), rng.randrange(36)
            return Box(x, y, min(right, x + rng.randint(0, most)), y + rng.randint(0, most))

        for _ in range(60):
            corners = [(x, y) for x in (0, 9, 20) for y in range(rng.randrange(4), 34, 5)]
            rows = [Row("r", Box(x, y, x + rng.randint(1, 9), y + 4), "N", 1) for x, y in corners]
            rng.shuffle(rows)
            halves = (("a", 0, 20), ("b", 20, 40))
            fences = [
                Fence(name, tuple(box(left, right, 20) for _ in range(rng.randint(1, 4))))
                for name, left, right in halves
            ]
            obstacles = [Obstacle(None, box(0, 40, 9)) for _ in range(rng.randrange(30))]
            frame = Frame(FACTS, rows, fences, obstacles, [])
            self.assertEqual(areas_of(frame), counted(frame))


if __name__ == "__main__":
    unittest.main()
