// The thin client of the move feed, by request 8: it takes only the next move of its own game. A test feeds it and the proved client
// (`renju_feed_take`) the same messages, and compares what they hold, refuse and answer.

// The message of seven bytes: the game number in four, the move's number in two, high byte first, and the code of its point.
export function readMessage([a, b, c, d, e, f, code]) {
  return { game: ((a << 24) | (b << 16) | (c << 8) | d) >>> 0, number: (e << 8) | f, code };
}

export function messageBytes({ game, number, code }) {
  return [...numberBytes(game, number), code];
}

// Six bytes: a game number and a count, or a move's number.
function numberBytes(game, number) {
  return [game >>> 24, (game >>> 16) & 255, (game >>> 8) & 255, game & 255, number >>> 8, number & 255];
}

export class Client {
  // Started once, empty, for a game.
  constructor(game) {
    this.game = game;
    this.held = [];
  }

  // A message arrives: the refusal's number, or 0 where the move is taken. None of them changes the client.
  take(message) {
    const refusal = this.refusal(message);
    if (refusal === 0) this.held.push(message.code);
    return refusal;
  }

  refusal({ game, number, code }) {
    if (game !== this.game) return 17;
    if (number !== this.held.length + 1) return 18;
    if (code > 224) return 8;
    return this.held.length < 225 ? 0 : 14;
  }

  // Its answer, also when it is only asked: its game number and how many moves it holds.
  answer() {
    return numberBytes(this.game, this.held.length);
  }

  // Whether a message that came tells of moves that are missing here; then the client asks for them.
  lacks({ game, number }) {
    return game > this.game || (game === this.game && number > this.held.length + 1);
  }
}
