/* Hands NULL with length 0 to every function that takes a slice, in the place of each slice, and writes
 * what each says: answers and refusals as of any other empty slice. empty.txt has what it must write. */
#include "renju.h"

#include <stdio.h>
#include <string.h>

static uint8_t board[RENJU_CELLS_BYTES]; /* empty */
static uint8_t full[RENJU_CELLS_BYTES];  /* all black */
static uint8_t out[RENJU_ROWS_BYTES];

static void say(const char *name, uint32_t word) {
    unsigned refusal = renju_refusal(word);
    printf("%s %s %u\n", name, refusal != 0 ? "refused" : "answers", refusal != 0 ? refusal : renju_answer(word));
}

static void texts(void) {
    uint8_t diagram[RENJU_DIAGRAM_BYTES];
    say("read_point", renju_read_point(NULL, 0));
    say("read", renju_read(NULL, 0, out, sizeof out));
    say("read", renju_read((const uint8_t *)"H8", 2, NULL, 0));
    say("to_string", renju_to_string(NULL, 0, out, sizeof out));
    say("to_string", renju_to_string(board, sizeof board, NULL, 0));
    say("to_pretty_string", renju_to_pretty_string(NULL, 0, out, sizeof out));
    say("to_pretty_string", renju_to_pretty_string(board, sizeof board, NULL, 0));
    renju_to_string(board, sizeof board, diagram, sizeof diagram);
    memcpy(diagram + 1, "o x", 3);
    say("read_diagram", renju_read_diagram(NULL, 0, out, sizeof out));
    say("read_diagram", renju_read_diagram(diagram, sizeof diagram, NULL, 0));
    say("convert", renju_convert(NULL, 0, out, sizeof out));
    say("convert", renju_convert(diagram, sizeof diagram, NULL, 0));
    say("mend", renju_mend(NULL, 0, out, sizeof out));
    say("mend", renju_mend((const uint8_t *)"H8", 2, NULL, 0));
}

static void points(void) {
    say("put", renju_put(NULL, 0, 112, RENJU_BLACK));
    say("remove", renju_remove(NULL, 0, 112));
    say("stones", renju_stones(NULL, 0, RENJU_BLACK, out, sizeof out));
    say("stones", renju_stones(board, sizeof board, RENJU_BLACK, NULL, 0));
    say("empty_points", renju_empty_points(NULL, 0, out, sizeof out));
    say("empty_points", renju_empty_points(full, sizeof full, NULL, 0));
    say("counts", renju_counts(NULL, 0));
    say("neighbors", renju_neighbors(NULL, 0, 112, 1, true, out, sizeof out));
    say("neighbors", renju_neighbors(full, sizeof full, 112, 1, true, NULL, 0));
    say("turn", renju_turn(NULL, 0, RENJU_SAME, out, sizeof out));
    say("turn", renju_turn(board, sizeof board, RENJU_SAME, NULL, 0));
    say("canonical", renju_canonical(NULL, 0, out, sizeof out));
    say("canonical", renju_canonical(board, sizeof board, NULL, 0));
}

static void rows(void) {
    say("rows", renju_rows(NULL, 0, RENJU_BLACK, RENJU_TWO, out, sizeof out));
    say("rows", renju_rows(board, sizeof board, RENJU_BLACK, RENJU_TWO, NULL, 0));
    say("rows_on", renju_rows_on(NULL, 0, 112, RENJU_BLACK, RENJU_TWO, out, sizeof out));
    say("rows_on", renju_rows_on(board, sizeof board, 112, RENJU_BLACK, RENJU_TWO, NULL, 0));
    say("four_eyes_on", renju_four_eyes_on(NULL, 0, 112, RENJU_BLACK, out, sizeof out));
    say("four_eyes_on", renju_four_eyes_on(board, sizeof board, 112, RENJU_BLACK, NULL, 0));
    say("forbidden", renju_forbidden(NULL, 0, 112));
    say("forbidden_strict", renju_forbidden_strict(NULL, 0, 112));
    say("depth", renju_depth(NULL, 0, 112));
    say("forbidden_points", renju_forbidden_points(NULL, 0, out, sizeof out));
    say("forbidden_points", renju_forbidden_points(board, sizeof board, NULL, 0));
}

static void second(void) {
    say("second_rows", renju_second_rows(NULL, 0, RENJU_BLACK, RENJU_TWO, out, sizeof out));
    say("second_rows", renju_second_rows(board, sizeof board, RENJU_BLACK, RENJU_TWO, NULL, 0));
    say("second_rows_on", renju_second_rows_on(NULL, 0, 112, RENJU_BLACK, RENJU_TWO, out, sizeof out));
    say("second_rows_on", renju_second_rows_on(board, sizeof board, 112, RENJU_BLACK, RENJU_TWO, NULL, 0));
    say("second_four_eyes_on", renju_second_four_eyes_on(NULL, 0, 112, RENJU_BLACK, out, sizeof out));
    say("second_four_eyes_on", renju_second_four_eyes_on(board, sizeof board, 112, RENJU_BLACK, NULL, 0));
    say("second_forbidden", renju_second_forbidden(NULL, 0, 112));
    say("second_forbidden_strict", renju_second_forbidden_strict(NULL, 0, 112));
    say("second_forbidden_points", renju_second_forbidden_points(NULL, 0, out, sizeof out));
    say("second_forbidden_points", renju_second_forbidden_points(board, sizeof board, NULL, 0));
}

static void games(void) {
    static const uint8_t move = 112, none[] = {1, 0, 1, 0, 2, 0, 0};
    static const char text[] = "(;GM[4]SZ[15])";
    say("game", renju_game(NULL, 0, out, sizeof out));
    say("game", renju_game(&move, 1, NULL, 0));
    say("to_tagged", renju_to_tagged(NULL, 0, RENJU_SAME, out, sizeof out));
    say("to_tagged", renju_to_tagged(&move, 1, RENJU_SAME, NULL, 0));
    say("from_tagged", renju_from_tagged(NULL, 0, out, sizeof out));
    say("from_tagged", renju_from_tagged(none, sizeof none, NULL, 0));
    say("tagged_view", renju_tagged_view(NULL, 0));
    say("feed_take", renju_feed_take(7, NULL, 0, 0, 7, 1, 112));
    say("feed_missing", renju_feed_missing(NULL, 0, NULL, 0));
    say("feed_missing", renju_feed_missing(NULL, 0, &move, 1));
    say("feed_missing", renju_feed_missing(&move, 1, NULL, 0));
    say("to_sgf", renju_to_sgf(NULL, 0, out, sizeof out));
    say("to_sgf", renju_to_sgf(&move, 1, NULL, 0));
    say("from_sgf", renju_from_sgf(NULL, 0, out, sizeof out));
    say("from_sgf", renju_from_sgf((const uint8_t *)text, sizeof text - 1, NULL, 0));
    say("win_check", renju_win_check(NULL, 0, RENJU_BLACK, &move, 1));
    say("win_check", renju_win_check(board, sizeof board, RENJU_BLACK, NULL, 0));
    say("win_plan", renju_win_plan(NULL, 0, RENJU_BLACK, 1, out, sizeof out));
    say("win_plan", renju_win_plan(board, sizeof board, RENJU_BLACK, 1, NULL, 0));
}

int main(void) {
    memset(full, RENJU_BLACK, sizeof full);
    texts();
    points();
    rows();
    second();
    games();
    return 0;
}
