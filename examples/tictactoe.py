"""Plays tic-tac-toe, always in the first free cell, with any other player: python3 tictactoe.py PROGRAM ADDRESS VIEW GAMES"""
import sys

from croquet import Session

program, address, me, games = sys.argv[1], sys.argv[2], int(sys.argv[3]), int(sys.argv[4])
session = Session(program, "game", address, me)
cells, played = [None] * 9, 0


def taken(move):
    cells[move[0]] = move[1]


def over(game):
    global cells, played
    cells, played = [None] * 9, played + 1
    print(f"game {played}:", *("-" if view is None else view for view in game[0]), "won by", game[1])


def turn(view):
    if view == me and played < games:
        session.publish("game", "take", cells.index(None))


session.on("game", "taken", taken)
session.on("game", "over", over)
session.on("game", "turn", turn)
session.publish("game", "ready")
while played < games and session.listen() is not None:
    pass
print(session.leave())
