// Plays tic-tac-toe, always in the last free cell, with any other player: node tictactoe.js PROGRAM ADDRESS VIEW GAMES
const { Session } = require("./croquet.js");

const [program, address, view, games] = process.argv.slice(2);
const me = Number(view);
const session = new Session(program, "game", address, me);
let cells = Array(9).fill(null), played = 0;

session.on("game", "taken", ([cell, view]) => { cells[cell] = view; });
session.on("game", "over", async ([board, winner]) => {
  cells = Array(9).fill(null);
  played += 1;
  console.log(`game ${played}:`, ...board.map(view => view ?? "-"), "won by", winner);
  if (played == games) console.log((await session.leave()).last);
});
session.on("game", "turn", view => {
  if (view === me && played < games) session.publish("game", "take", cells.lastIndexOf(null));
});
session.publish("game", "ready");
