#!/usr/bin/env python3
"""Draws the plans of jobs in one picture, one below the other, each under the name of its file.

    tools/draw_plan.py JOB [JOB ..] > plans.svg

So one sees side by side what `liskevar optimize` made of a plan. `python3 -m liskevar draw` draws a single one, with its
pipelines.
"""

import html
import os
import re
import sys

sys.path.insert(0, os.path.join(os.path.dirname(os.path.dirname(os.path.abspath(__file__))), "python"))

from liskevar.drawing import FONT, picture  # noqa: E402
from liskevar.errors import LiskevarError  # noqa: E402
from liskevar.plan_json import plan_of_job  # noqa: E402

TITLE = 34


def drawn(path):
    """The picture of a job's plan, its width and its height."""
    with open(path, encoding="utf-8") as file:
        made = picture(plan_of_job(path, file.read()))
    width, height = map(float, re.match(r'<svg [^>]*width="([\d.]+)" height="([\d.]+)"', made).groups())
    return made, width, height


def main():
    paths = sys.argv[1:]
    if not paths or paths[0].startswith("-"):
        print(__doc__, file=sys.stderr)
        return 1
    parts, top, right = [], 0, 0
    for path in paths:
        try:
            made, width, height = drawn(path)
        except (OSError, UnicodeDecodeError, LiskevarError) as error:
            print(f"draw_plan.py: {error}", file=sys.stderr)
            return 1
        name = html.escape(os.path.basename(path))
        parts.append(f'<text x="20" y="{top + 24}" {FONT} font-weight="bold">{name}</text>')
        parts.append(made.replace("<svg ", f'<svg y="{top + TITLE}" ', 1).rstrip("\n"))
        top, right = top + TITLE + height, max(right, width)
    size = f'width="{right:g}" height="{top:g}"'
    print(f'<svg xmlns="http://www.w3.org/2000/svg" {size}><rect width="100%" height="100%" fill="white"/>')
    print("\n".join([*parts, "</svg>"]))
    return 0


if __name__ == "__main__":
    sys.exit(main())
