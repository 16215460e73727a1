/*
 * The host interface of the renju referee, for C and C++.
 *
 * Every function answers one word: the refusal in the high half (0: none), the answer in the low.
 *
 *     uint32_t word = renju_forbidden_points(cells, sizeof cells, out, sizeof out);
 *     if (renju_refusal(word) != 0) {
 *         fprintf(stderr, "refused: %s\n", renju_refusal_text(renju_refusal(word)));
 *     } else {
 *         use(renju_answer(word));
 *     }
 *
 * A slice is two arguments, a pointer and a length; NULL with length 0 is an empty one. The functions
 * keep no state and no pointer, so any thread may call them. They take any bytes and any numbers, and
 * never trap. A refusal leaves every lent byte as it was; an answer changes its own leading bytes of
 * the lent buffer (renju_put, renju_remove and renju_feed_take: one byte) and no other.
 *
 * What the caller answers for: a pointer has as many bytes behind it as its length says, and is NULL
 * only with length 0; a buffer that is written (`out`, and `cells` and `held` where they are not
 * const) overlaps nothing else that is handed over, and no other thread uses it meanwhile, not even
 * other bytes of it; a `bool` is 0 or 1, as C has it.
 *
 * Cells are 225 bytes in code order, 0 empty, 1 black, 2 white. A point's code is 15 x + y: A1 is
 * 0, H8 is 112, O15 is 224. Where several refusals of a function apply, the first named is given. A
 * text has a length and no 0 byte at its end, one that is written too.
 *
 * To link: `rust/renju/archive` in the repository's root, on x86-64 Linux, writes
 * target/staticlib/librenju.a (with --aarch64 one for aarch64 Linux). Then, in the root:
 *
 *     cc -std=c99 -Irust/renju/include program.c target/staticlib/librenju.a -o program
 *
 * or, once `rust/renju/install PREFIX` has put both and renju.pc under a prefix:
 *
 *     cc -std=c99 program.c $(pkg-config --cflags --libs renju) -o program
 */
#ifndef RENJU_H
#define RENJU_H

#include <stdbool.h>
#include <stddef.h>
#include <stdint.h>

#ifdef __cplusplus
extern "C" {
#endif

/* The version of the package that this header is of. */
#define RENJU_VERSION "0.1.0"
#define RENJU_VERSION_MAJOR 0
#define RENJU_VERSION_MINOR 1
#define RENJU_VERSION_PATCH 0

/* The version of the interface, one more whenever a function is added, removed or changed. The archive
 * carries it in the name of renju_interface_2. */
#define RENJU_INTERFACE 2

/* Sizes, in bytes: of one thing, of the longest there is, or room enough for any list. */
#define RENJU_TEXT_BYTES 4096       /* a text that is read has at most so many */
#define RENJU_CELLS_BYTES 225       /* the cells of a board */
#define RENJU_POINTS_BYTES 225      /* room for any list of points, a code each */
#define RENJU_DIAGRAM_BYTES 464     /* the plain diagram */
#define RENJU_PRETTY_BYTES 527      /* the numbered diagram */
#define RENJU_STONES_TEXT_BYTES 764 /* stones text has at most so many */
#define RENJU_CROSS_BYTES 2         /* a forbidden point in a list: verdict, code */
#define RENJU_CROSSES_BYTES 450     /* room for any list of them */
#define RENJU_ROW_BYTES 4           /* a row in a list: key, start, stones mask, eyes mask */
#define RENJU_ROWS_BYTES 2288       /* room for any board's rows of a kind, at most 572 */
#define RENJU_ROWS_ON_BYTES 80      /* room for those through one point, at most 20 */
#define RENJU_MOVES_BYTES 225       /* the moves of the longest game, a code each */
#define RENJU_REPORT_BYTES 228      /* the report of a game: number, reason, winner, cells */
#define RENJU_RECORD_BYTES 232      /* a stored game in tagged form has at most so many */
#define RENJU_SGF_BYTES 1364        /* a game's SGF text has at most so many */
#define RENJU_MENDED_BYTES 1152     /* room for the two lines of any mended list */
#define RENJU_LINE_BYTES 11         /* room for a line of at most six attacks, a code each */

/* Why a question was refused. */
enum renju_refusals {
    RENJU_REFUSED_TEXT_LENGTH = 1,     /* a text of over 4,096 bytes */
    RENJU_REFUSED_TEXT_BYTE = 2,       /* a text byte of 128 or more */
    RENJU_REFUSED_X_PART = 3,          /* a point of a text: its letter; a second slash */
    RENJU_REFUSED_Y_PART = 4,          /* a point of a text: its one or two digits, 1 to 15 */
    RENJU_REFUSED_LINE_LENGTH = 5,     /* a diagram line of over 15 cells */
    RENJU_REFUSED_LINE_COUNT = 6,      /* a diagram of other than 15 lines */
    RENJU_REFUSED_LINE_SIZE = 7,       /* a diagram line of under 15 cells */
    RENJU_REFUSED_POINT = 8,           /* a point's code over 224 */
    RENJU_REFUSED_UNSOUND = 9,         /* cells of another length or with a byte over 2; an unsound line */
    RENJU_REFUSED_PLACE = 10,          /* a line's size outside 5 to 15; a cell not on it */
    RENJU_REFUSED_OCCUPIED = 11,       /* the plain verdict at an occupied point */
    RENJU_REFUSED_NUMBER = 12,         /* no such view, distance, colour or row kind */
    RENJU_REFUSED_OUTPUT = 13,         /* a lent output shorter than the whole answer */
    RENJU_REFUSED_MANY_MOVES = 14,     /* a game of more than 225 moves */
    RENJU_REFUSED_MALFORMED = 15,      /* a malformed record */
    RENJU_REFUSED_TURNED_VIEW = 16,    /* a record in another view than 0, taken back */
    RENJU_REFUSED_FOREIGN_GAME = 17,   /* a move of another game */
    RENJU_REFUSED_NOT_NEXT = 18,       /* a move whose number is not next */
    RENJU_REFUSED_APART_LISTS = 19,    /* two lists of which neither begins the other */
    RENJU_REFUSED_OUTSIDE_SUBSET = 20, /* an SGF text outside the subset that is read */
    RENJU_REFUSED_LIMIT = 21,          /* a limit of attacks outside 1 to 6 */
    RENJU_REFUSED_ONE_SIDED = 22       /* a side without stones, which stones text can't say */
};

/* What is on a cell; the last two are the colours. */
enum renju_cells { RENJU_EMPTY = 0, RENJU_BLACK = 1, RENJU_WHITE = 2 };

/* The kinds of rows. */
enum renju_kinds {
    RENJU_TWO = 0,
    RENJU_THREE = 1,
    RENJU_STRAIGHT = 2,
    RENJU_SWORD = 3,
    RENJU_FOUR = 4,
    RENJU_FIVE = 5,
    RENJU_OVERLINING = 6,
    RENJU_OVERLINED = 7
};

/* What the referee says of a point. */
enum renju_verdicts {
    RENJU_NONE = 0,
    RENJU_DOUBLE_THREE = 1,
    RENJU_DOUBLE_FOUR = 2,
    RENJU_OVERLINE = 3
};

/* Why a move of a game is faulty; where several apply, the first of these. */
enum renju_reasons {
    RENJU_REASON_NONE = 0,
    RENJU_REASON_OCCUPIED = 1,
    RENJU_REASON_FORBIDDEN = 2,
    RENJU_REASON_AFTER_FIVE = 3
};

/* The views, each with where it sends the point (x, y). */
enum renju_views {
    RENJU_SAME = 0,          /* (x, y) */
    RENJU_QUARTER_RIGHT = 1, /* (y, 14 - x) */
    RENJU_HALF_TURN = 2,     /* (14 - x, 14 - y) */
    RENJU_QUARTER_LEFT = 3,  /* (14 - y, x) */
    RENJU_LEFT_RIGHT = 4,    /* (14 - x, y) */
    RENJU_TOP_BOTTOM = 5,    /* (x, 14 - y) */
    RENJU_ASCENDING = 6,     /* (y, x) */
    RENJU_DESCENDING = 7     /* (14 - y, 14 - x) */
};

/* The refusal in a word, 0 for none. */
static inline unsigned renju_refusal(uint32_t word) { return (unsigned)(word >> 16); }

/* The answer in a word that has no refusal. */
static inline unsigned renju_answer(uint32_t word) { return (unsigned)(word & 0xffff); }

/* What a refusal means, in words: for any number, 0 and unknown ones too. */
static inline const char *renju_refusal_text(unsigned refusal) {
    switch (refusal) {
    case 0:
        return "not refused";
    case RENJU_REFUSED_TEXT_LENGTH:
        return "the text has over 4,096 bytes";
    case RENJU_REFUSED_TEXT_BYTE:
        return "the text has a byte of 128 or more";
    case RENJU_REFUSED_X_PART:
        return "a point's letter is not A to O, or there is a second slash";
    case RENJU_REFUSED_Y_PART:
        return "behind a point's letter there is not just a number 1 to 15 of one or two digits";
    case RENJU_REFUSED_LINE_LENGTH:
        return "wrong length: a diagram line has over 15 cells";
    case RENJU_REFUSED_LINE_COUNT:
        return "wrong number of lines: a diagram has 15";
    case RENJU_REFUSED_LINE_SIZE:
        return "wrong line size: a diagram line has under 15 cells";
    case RENJU_REFUSED_POINT:
        return "no such point: its code is over 224 or a coordinate over 14";
    case RENJU_REFUSED_UNSOUND:
        return "unsound: not 225 cell bytes of 0 to 2, or a line with a stone past its end or two on a cell";
    case RENJU_REFUSED_PLACE:
        return "no such place: the line's size is not 5 to 15, or the cell not on it";
    case RENJU_REFUSED_OCCUPIED:
        return "the point is occupied";
    case RENJU_REFUSED_NUMBER:
        return "no view, distance, colour, row kind, verdict or reason has this number or name";
    case RENJU_REFUSED_OUTPUT:
        return "the lent output is too short";
    case RENJU_REFUSED_MANY_MOVES:
        return "the game has more than 225 moves";
    case RENJU_REFUSED_MALFORMED:
        return "the record is malformed";
    case RENJU_REFUSED_TURNED_VIEW:
        return "the record is in another view than 0";
    case RENJU_REFUSED_FOREIGN_GAME:
        return "the move is of another game, or no game number is left";
    case RENJU_REFUSED_NOT_NEXT:
        return "the move's number is not next, or there is no such move";
    case RENJU_REFUSED_APART_LISTS:
        return "neither list begins the other";
    case RENJU_REFUSED_OUTSIDE_SUBSET:
        return "the SGF text is outside the subset that is read";
    case RENJU_REFUSED_LIMIT:
        return "the limit of attacks is not 1 to 6";
    case RENJU_REFUSED_ONE_SIDED:
        return "a side has no stones, which stones text can't say";
    default:
        return "a refusal that this version does not know";
    }
}

/* The version of the interface: RENJU_INTERFACE. Never refused. An archive of another version has no
 * function of this name. */
uint32_t renju_interface_2(void);

#ifdef __GNUC__
/* Refers to it from every file that includes this header, so that none links with an archive of another
 * version. Other compilers' callers can compare renju_interface_2() themselves. */
static uint32_t (*const renju_linked_interface)(void) __attribute__((used)) = renju_interface_2;
#endif

/*
 * Texts and boards
 */

/* The code of the point that a text names, alone in it: one letter A to O or a to o, and one or two
 * digits, 1 to 15, with space around them; nothing behind. Refusals 1, 2, 3 for the letter, 4 for what
 * is behind it. */
uint32_t renju_read_point(const uint8_t *text, size_t text_len);

/* The board that a text says, stones (`G8,I8/A1`) or moves (`H8,I9`): 225, its cells in the first 225
 * bytes of `cells`. A point is read as by renju_read_point; a lone one is one move, Black's. Refusals 1,
 * 2, of 3 and 4 the first that the reading meets, 3 also for a second slash, 13. */
uint32_t renju_read(const uint8_t *text, size_t text_len, uint8_t *cells, size_t cells_len);

/* The board of a saved diagram: 225, its cells in the first 225 bytes of `cells`. Every text is taken for
 * a diagram: o is black, x white, any other byte but space an empty cell. Refusals 1, 2, 5, 6, 7, 13. */
uint32_t renju_read_diagram(const uint8_t *text, size_t text_len, uint8_t *cells, size_t cells_len);

/* A saved diagram converted to stones text, which renju_read reads as the same board: its length, at most
 * RENJU_STONES_TEXT_BYTES; in `out` Black's points by ascending code, a slash, White's. Refusals 1, 2, 5,
 * 6, 7, 22 for a side without stones, 13. */
uint32_t renju_convert(const uint8_t *text, size_t text_len, uint8_t *out, size_t out_len);

/* The plain diagram of a board, which renju_read_diagram reads back: 464; in `out` its bytes, row 15
 * first. Refusals 9, 13. */
uint32_t renju_to_string(const uint8_t *cells, size_t cells_len, uint8_t *out, size_t out_len);

/* The diagram of a board with numbers and letters at its edges, for people: 527; in `out` its bytes.
 * Refusals 9, 13. */
uint32_t renju_to_pretty_string(const uint8_t *cells, size_t cells_len, uint8_t *out,
                                size_t out_len);

/* Puts a stone of a colour at a point, in place of what stood there: 0; one byte of `cells` is changed.
 * Others near it may be written as they were. Refusals 9, 8, 12. */
uint32_t renju_put(uint8_t *cells, size_t cells_len, uint8_t code, uint8_t colour);

/* Makes a point empty: 0; one byte of `cells` is changed, as by renju_put. Refusals 9, 8. */
uint32_t renju_remove(uint8_t *cells, size_t cells_len, uint8_t code);

/* A colour's stones: how many; in `out` a code each, ascending. Refusals 9, 12, 13. */
uint32_t renju_stones(const uint8_t *cells, size_t cells_len, uint8_t colour, uint8_t *out,
                      size_t out_len);

/* The empty points: how many; in `out` a code each, ascending. Refusals 9, 13. */
uint32_t renju_empty_points(const uint8_t *cells, size_t cells_len, uint8_t *out, size_t out_len);

/* How many stones each side has: 256 times White's plus Black's. Refusal 9. */
uint32_t renju_counts(const uint8_t *cells, size_t cells_len);

/* The points up to a distance, 0 to 14, on the four lines through a point, the point itself on
 * each, or only those that are empty: how many; in `out` a code each, line by line. Refusals 9, 8, 12,
 * 13. */
uint32_t renju_neighbors(const uint8_t *cells, size_t cells_len, uint8_t code, uint8_t distance,
                         bool only_empty, uint8_t *out, size_t out_len);

/*
 * Rows and verdicts
 */

/* A colour's rows of a kind: how many, at most 572; in `out` four bytes each, by key, then start. The key
 * is the line's: vertical 0 to 14, horizontal 15 to 29, ascending 30 to 50, descending 51 to 71. Bit k of
 * a mask is for the cell k after the start. Refusals 9, 12, 13. */
uint32_t renju_rows(const uint8_t *cells, size_t cells_len, uint8_t colour, uint8_t kind,
                    uint8_t *out, size_t out_len);

/* A colour's rows of a kind through a point: how many, at most 20; in `out` four bytes each, as by
 * renju_rows, line by line. Refusals 9, 8, 12, 13. */
uint32_t renju_rows_on(const uint8_t *cells, size_t cells_len, uint8_t code, uint8_t colour,
                       uint8_t kind, uint8_t *out, size_t out_len);

/* The points that make a five of a colour's Fours through a point: how many; in `out` a code each, line
 * by line, each once a line. Refusals 9, 8, 12, 13. */
uint32_t renju_four_eyes_on(const uint8_t *cells, size_t cells_len, uint8_t code, uint8_t colour,
                            uint8_t *out, size_t out_len);

/* The plain verdict on a black stone at an empty point, whether or not it completes a five: one of enum
 * renju_verdicts. Refusals 9, 8, 11. */
uint32_t renju_forbidden(const uint8_t *cells, size_t cells_len, uint8_t code);

/* The strict verdict, that of the rules: one of enum renju_verdicts, none at an occupied point, and where
 * the stone completes a five. Refusals 9, 8. */
uint32_t renju_forbidden_strict(const uint8_t *cells, size_t cells_len, uint8_t code);

/* How deep the strict question at a point goes, with its verdict: 256 times the depth plus the
 * verdict. The depth is 0 at an occupied point, 1 where the question asks no other, else one more
 * than the deepest question at the eye of a three that the stone would make; it is at most the
 * number of empty points. Refusals 9, 8. */
uint32_t renju_depth(const uint8_t *cells, size_t cells_len, uint8_t code);

/* The points that the strict verdict forbids to Black: how many; in `out` two bytes each, verdict and
 * code, by code. Refusals 9, 13. */
uint32_t renju_forbidden_points(const uint8_t *cells, size_t cells_len, uint8_t *out,
                                size_t out_len);

/*
 * Whole games
 */

/* A game refereed, its moves as codes, Black's first: the number of the first faulty move, from 1, or
 * 0. In `out`, 228 bytes: that number, the reason, the winner (RENJU_EMPTY for nobody, and where a move
 * is faulty), and the cells of the final board or of the one before the fault. Refusals 14, 8 for a code
 * over 224 anywhere among them, 13. */
uint32_t renju_game(const uint8_t *moves, size_t moves_len, uint8_t *out, size_t out_len);

/*
 * Views
 */

/* The cells in a view: 225; in `out` the turned cells. Refusals 9, 12, 13. */
uint32_t renju_turn(const uint8_t *cells, size_t cells_len, uint8_t view, uint8_t *out,
                    size_t out_len);

/* The least of the eight turned boards by its cell bytes, the same for a position in whatever view it
 * comes: the first view that gives it; in `out` its 225 cells. Refusals 9, 13. */
uint32_t renju_canonical(const uint8_t *cells, size_t cells_len, uint8_t *out, size_t out_len);

/* The code of the point that a view sends a point to. Refusals 8, 12. */
uint32_t renju_turn_point(uint8_t code, uint8_t view);

/* The view that equals the first followed by the second: RENJU_LEFT_RIGHT, then RENJU_QUARTER_RIGHT
 * is RENJU_ASCENDING, and the other way round RENJU_DESCENDING. Refusal 12. */
uint32_t renju_view_then(uint8_t first, uint8_t second);

/* The view that takes a view back. Refusal 12. */
uint32_t renju_view_back(uint8_t view);

/*
 * A line alone: 5 to 15 cells by the masks of their stones, bit i for cell i
 */

/* Where a colour's rows of a kind start on the line: a mask. Refusals 10 for the size, 9, 12. */
uint32_t renju_line_starts(uint16_t blacks, uint16_t whites, uint8_t size, uint8_t colour,
                           uint8_t kind);

/* Where a colour's rows of a kind that go through a cell start: a mask. Refusals 10 for the size, 9, 12,
 * 10 for the cell. */
uint32_t renju_line_starts_on(uint16_t blacks, uint16_t whites, uint8_t size, uint8_t colour,
                              uint8_t kind, uint8_t cell);

/* The eyes of a colour's rows of a kind on the line: a mask. Refusals 10 for the size, 9, 12. */
uint32_t renju_line_eyes(uint16_t blacks, uint16_t whites, uint8_t size, uint8_t colour,
                         uint8_t kind);

/*
 * The second referee: slow, for night checks beside the fast one. It walks the cells by their
 * coordinates. Each of these takes, answers and refuses what the one without `second_` does.
 */

/* As renju_rows: how many; in `out` four bytes each. Refusals 9, 12, 13. */
uint32_t renju_second_rows(const uint8_t *cells, size_t cells_len, uint8_t colour, uint8_t kind,
                           uint8_t *out, size_t out_len);

/* As renju_rows_on: how many; in `out` four bytes each. Refusals 9, 8, 12, 13. */
uint32_t renju_second_rows_on(const uint8_t *cells, size_t cells_len, uint8_t code, uint8_t colour,
                              uint8_t kind, uint8_t *out, size_t out_len);

/* As renju_four_eyes_on: how many; in `out` a code each. Refusals 9, 8, 12, 13. */
uint32_t renju_second_four_eyes_on(const uint8_t *cells, size_t cells_len, uint8_t code,
                                   uint8_t colour, uint8_t *out, size_t out_len);

/* As renju_forbidden: the plain verdict. Refusals 9, 8, 11. */
uint32_t renju_second_forbidden(const uint8_t *cells, size_t cells_len, uint8_t code);

/* As renju_forbidden_strict: the strict verdict. Refusals 9, 8. */
uint32_t renju_second_forbidden_strict(const uint8_t *cells, size_t cells_len, uint8_t code);

/* As renju_forbidden_points: how many; in `out` two bytes each. Refusals 9, 13. */
uint32_t renju_second_forbidden_points(const uint8_t *cells, size_t cells_len, uint8_t *out,
                                       size_t out_len);

/*
 * Stored games. The old form is a point's code for each move. The new one, a record, is two fields
 * of a tag, a length in two bytes, high byte first, and a value: tag 1 the view, one byte, 0 to 7;
 * then tag 2 the moves, at most 225; nothing after.
 */

/* The record of moves in a view: how many bytes, 7 more than there are moves; in `out` the record.
 * Refusals 14, 8, 12, 13. */
uint32_t renju_to_tagged(const uint8_t *moves, size_t moves_len, uint8_t view, uint8_t *out,
                         size_t out_len);

/* The moves of a record in view 0: how many; in `out` a code each. Refusals 15, 14, 8, 16, 13. */
uint32_t renju_from_tagged(const uint8_t *record, size_t record_len, uint8_t *out,
                           size_t out_len);

/* The view of a record. Refusals 15, 14, 8. */
uint32_t renju_tagged_view(const uint8_t *record, size_t record_len);

/*
 * The move feed. A client holds count moves of a game, a code each, in the leading bytes of held; the
 * message that arrives is move `number`, from 1, of game of_game.
 */

/* The client takes the next move of its own game: the new count; held[count] is the code. Refusals 17,
 * 18, 8, 14 for a 226th move, 13 for a held of no more than count bytes. */
uint32_t renju_feed_take(uint32_t game, uint8_t *held, size_t held_len, uint16_t count,
                         uint32_t of_game, uint16_t number, uint8_t code);

/* Two held lists compared: 0 if they are equal, 1 if the first is longer, 2 if the second is. The part
 * that the shorter lacks is the longer one from the shorter one's length on. Refusal 19. */
uint32_t renju_feed_missing(const uint8_t *first, size_t first_len, const uint8_t *second,
                            size_t second_len);

/*
 * Games as SGF text: `(;GM[4]SZ[15]`, then `;B[hh]` or `;W[hh]` in turn for each move, then `)`. The
 * letters, a to o, are the column and the row counted from the top: A1 is `ao`, O15 is `oa`.
 */

/* The text of moves: how many bytes, 14 and six for each move; in `out` the text. Refusals 14, 8, 13. */
uint32_t renju_to_sgf(const uint8_t *moves, size_t moves_len, uint8_t *out, size_t out_len);

/* The moves of a text: how many; in `out` a code each. White space, bytes 9 to 13 and 32, may stand around
 * tokens: `(` `)` `;`, a name such as `GM`, a value with its brackets. Refusals 1, 2, 20 for anything
 * else, 14, 13. */
uint32_t renju_from_sgf(const uint8_t *text, size_t text_len, uint8_t *out, size_t out_len);

/*
 * Typed move lists
 */

/* A hand-typed comma list of moves mended: how many bytes its two lines have; in `out` the lines, each
 * ended by byte 10. The first has the leading moves up to the first item that is no point, or a point that
 * is kept already; the second that item's number, from 1, and its reason (3 or 4 of the point, 1 for a
 * repeat), or `0 0`. RENJU_MENDED_BYTES are room enough. Refusals 1, 2, 13. */
uint32_t renju_mend(const uint8_t *text, size_t text_len, uint8_t *out, size_t out_len);

/*
 * Hints, a win by fours: attacks of one side's, the first point, the third and so on, each a four or a
 * five, and the replies that they force, to an end that wins against every reply
 */

/* Whether a line of codes is such a one for the colour, to move: 1 or 0. Refusals 9, 8, 12. */
uint32_t renju_win_check(const uint8_t *cells, size_t cells_len, uint8_t colour,
                         const uint8_t *line, size_t line_len);

/* The first such line of at most limit attacks, 1 to 6, by comparing codes from the front: how many
 * points, 0 for no line; in `out` a code each. Refusals 9, 12, 21, 13 for less room than
 * RENJU_LINE_BYTES. */
uint32_t renju_win_plan(const uint8_t *cells, size_t cells_len, uint8_t colour, uint8_t limit,
                        uint8_t *out, size_t out_len);

#ifdef __cplusplus
}
#endif

#endif
