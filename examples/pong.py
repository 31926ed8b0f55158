"""Plays pong: python3 pong.py PROGRAM ADDRESS VIEW POINTS [PLACE]. The paddle follows the ball, or stays at PLACE, until a player has so many points."""
import re
import sys

from croquet import Session

BALL = re.compile(r"object [0-9]+ Ball .* y (-?[0-9]+) .*")


def place_of_ball(lines):
    """How far down the ball is, by the lines of the world."""
    return next(int(found[1]) for line in lines if (found := BALL.fullmatch(line)))


def play(session, points, place):
    """Plays until a player has so many points, and returns the points of both."""
    score = [0, 0]

    def told(both):
        score[:] = both

    session.on("pong", "score", told)
    while max(score) < points:
        session.publish("pong", "move", place_of_ball(session.show()) if place is None else place)
        session.ask("wait +50000")
    return score


def main(program, address, view, points, place=None):
    session = Session(program, "pong", address, int(view))
    left, right = play(session, int(points), place and int(place))
    print("left" if left > right else "right", "has", max(left, right), "points")
    print(session.leave())


main(*sys.argv[1:])
