/* Calls every function of the header and writes what each says, a line or a diagram each. It is
 * compiled as C and as C++; calls.txt has what it must write. */
#include "renju.h"

#include <stdio.h>
#include <string.h>

static uint8_t cells[RENJU_CELLS_BYTES];
static uint8_t out[RENJU_ROWS_BYTES];

/* The function's name, its answer or refusal, and `bytes` for each item of the answer. */
static void say(const char *name, uint32_t word, unsigned bytes) {
    unsigned i;
    printf("%s", name);
    if (renju_refusal(word) != 0) {
        printf(" refused %u\n", renju_refusal(word));
        return;
    }
    printf(" %u", renju_answer(word));
    for (i = 0; i < bytes * renju_answer(word); i++) {
        printf("%c%u", i % bytes == 0 ? ':' : ',', (unsigned)out[i]);
    }
    printf("\n");
}

static uint32_t read_text(const char *text) {
    return renju_read((const uint8_t *)text, strlen(text), cells, sizeof cells);
}

/* The plain diagram in `out`, read back and converted; then no diagram at all. */
static void saved(void) {
    uint8_t diagram[RENJU_DIAGRAM_BYTES];
    uint32_t word;
    memcpy(diagram, out, sizeof diagram);
    say("read_diagram", renju_read_diagram(diagram, sizeof diagram, cells, sizeof cells), 0);
    word = renju_convert(diagram, sizeof diagram, out, RENJU_STONES_TEXT_BYTES);
    say("convert", word, 0);
    printf("%.*s\n", (int)renju_answer(word), (const char *)out);
    say("convert", renju_convert(diagram, sizeof diagram, out, 4), 0);
    say("convert", renju_convert(diagram, 4, out, 4), 0);
    memset(diagram, '.', sizeof diagram);
    say("read_diagram", renju_read_diagram(diagram, 16, cells, sizeof cells), 0);
}

static void texts(void) {
    say("interface_2", renju_interface_2(), 0);
    say("read_point", renju_read_point((const uint8_t *)" h08", 4), 0);
    say("read_point", renju_read_point((const uint8_t *)"H8,I9", 5), 0);
    say("read", read_text("H16,A1"), 0);
    say("read", read_text("G8,I8,H7,H9/A1"), 0);
    say("to_string", renju_to_string(cells, sizeof cells, out, RENJU_DIAGRAM_BYTES), 0);
    printf("%.*s\n", RENJU_DIAGRAM_BYTES, (const char *)out);
    saved();
    say("to_string", renju_to_string(cells, sizeof cells, out, RENJU_DIAGRAM_BYTES - 1), 0);
    say("to_pretty_string", renju_to_pretty_string(cells, sizeof cells, out, RENJU_PRETTY_BYTES), 0);
    printf("%.*s\n", RENJU_PRETTY_BYTES, (const char *)out);
}

static void points(void) {
    say("stones", renju_stones(cells, sizeof cells, RENJU_BLACK, out, RENJU_POINTS_BYTES), 1);
    say("stones", renju_stones(cells, sizeof cells, RENJU_WHITE, out, RENJU_POINTS_BYTES), 1);
    say("stones", renju_stones(cells, sizeof cells, RENJU_EMPTY, out, RENJU_POINTS_BYTES), 1);
    say("empty_points", renju_empty_points(cells, sizeof cells, out, RENJU_POINTS_BYTES), 0);
    say("neighbors", renju_neighbors(cells, sizeof cells, 112, 1, false, out, RENJU_POINTS_BYTES), 1);
    say("neighbors", renju_neighbors(cells, sizeof cells, 112, 1, true, out, RENJU_POINTS_BYTES), 1);
    say("neighbors", renju_neighbors(cells, sizeof cells, 112, 15, true, out, RENJU_POINTS_BYTES), 1);
    say("turn", renju_turn(cells, sizeof cells, RENJU_QUARTER_RIGHT, out, RENJU_CELLS_BYTES), 0);
    printf("A15 is %u\n", (unsigned)out[14]);
    say("canonical", renju_canonical(cells, sizeof cells, out, RENJU_CELLS_BYTES), 0);
    printf("O15 is %u\n", (unsigned)out[224]);
    say("canonical", renju_canonical(cells, sizeof cells, out, RENJU_CELLS_BYTES - 1), 0);
    say("turn_point", renju_turn_point(0, RENJU_QUARTER_RIGHT), 0);
    say("turn_point", renju_turn_point(225, RENJU_SAME), 0);
    say("view_then", renju_view_then(RENJU_LEFT_RIGHT, RENJU_QUARTER_RIGHT), 0);
    say("view_then", renju_view_then(RENJU_QUARTER_RIGHT, RENJU_LEFT_RIGHT), 0);
    say("view_then", renju_view_then(RENJU_SAME, 8), 0);
    say("view_back", renju_view_back(RENJU_QUARTER_RIGHT), 0);
}

static void second_verdicts(void) {
    say("second_forbidden", renju_second_forbidden(cells, sizeof cells, 112), 0);
    say("second_forbidden", renju_second_forbidden(cells, sizeof cells, 0), 0);
    say("second_forbidden_strict", renju_second_forbidden_strict(cells, sizeof cells, 112), 0);
    say("second_forbidden_strict", renju_second_forbidden_strict(cells, sizeof cells, 225), 0);
    say("second_forbidden_points",
        renju_second_forbidden_points(cells, sizeof cells, out, sizeof out), 2);
    say("second_forbidden_points", renju_second_forbidden_points(cells, sizeof cells, out, 1), 2);
}

static void verdicts(void) {
    say("forbidden", renju_forbidden(cells, sizeof cells, 112), 0);
    say("forbidden", renju_forbidden(cells, sizeof cells, 0), 0);
    say("forbidden_strict", renju_forbidden_strict(cells, sizeof cells, 112), 0);
    say("depth", renju_depth(cells, sizeof cells, 112), 0);
    say("depth", renju_depth(cells, sizeof cells, 225), 0);
    say("forbidden_points", renju_forbidden_points(cells, sizeof cells, out, sizeof out), 2);
    second_verdicts();
    say("put", renju_put(cells, sizeof cells, 67, RENJU_WHITE), 0);
    say("put", renju_put(cells, sizeof cells, 157, RENJU_WHITE), 0);
    say("forbidden_points", renju_forbidden_points(cells, sizeof cells, out, sizeof out), 2);
    say("remove", renju_remove(cells, sizeof cells, 157), 0);
    say("forbidden_points", renju_forbidden_points(cells, sizeof cells, out, sizeof out), 2);
    say("remove", renju_remove(cells, sizeof cells - 1, 157), 0);
}

static void rows(void) {
    size_t some = RENJU_ROWS_ON_BYTES;
    say("read", read_text("E8,F8,G8,H8/I8,A1"), 0);
    say("rows", renju_rows(cells, sizeof cells, RENJU_BLACK, RENJU_FOUR, out, sizeof out), 4);
    say("rows", renju_rows(cells, sizeof cells, RENJU_BLACK, 8, out, sizeof out), 4);
    say("four_eyes_on",
        renju_four_eyes_on(cells, sizeof cells, 82, RENJU_BLACK, out, RENJU_POINTS_BYTES), 1);
    say("second_four_eyes_on",
        renju_second_four_eyes_on(cells, sizeof cells, 82, RENJU_BLACK, out, RENJU_POINTS_BYTES), 1);
    say("second_four_eyes_on",
        renju_second_four_eyes_on(cells, sizeof cells, 82, RENJU_EMPTY, out, RENJU_POINTS_BYTES), 1);
    say("read", read_text("E8,F8,G8/I8,A1"), 0);
    say("rows", renju_rows(cells, sizeof cells, RENJU_BLACK, RENJU_SWORD, out, sizeof out), 4);
    say("rows_on", renju_rows_on(cells, sizeof cells, 37, RENJU_BLACK, RENJU_SWORD, out, some), 4);
    say("rows_on", renju_rows_on(cells, sizeof cells, 37, RENJU_BLACK, RENJU_SWORD, out, 3), 4);
    say("second_rows",
        renju_second_rows(cells, sizeof cells, RENJU_BLACK, RENJU_SWORD, out, sizeof out), 4);
    say("second_rows", renju_second_rows(cells, sizeof cells, RENJU_BLACK, 8, out, sizeof out), 4);
    say("second_rows_on",
        renju_second_rows_on(cells, sizeof cells, 37, RENJU_BLACK, RENJU_SWORD, out, some), 4);
    say("second_rows_on",
        renju_second_rows_on(cells, sizeof cells, 37, RENJU_BLACK, RENJU_SWORD, out, 3), 4);
}

/* C3 of the table of cases: White on 0 to 3 and 5 has two rows and one eye. */
static void lines(void) {
    say("line_starts", renju_line_starts(0, 0x2f, 15, RENJU_WHITE, RENJU_FOUR), 0);
    say("line_starts", renju_line_starts(0, 0x2f, 5, RENJU_WHITE, RENJU_FOUR), 0);
    say("line_starts_on", renju_line_starts_on(0, 0x2f, 15, RENJU_WHITE, RENJU_FOUR, 5), 0);
    say("line_starts_on", renju_line_starts_on(0, 0x2f, 15, RENJU_WHITE, RENJU_FOUR, 15), 0);
    say("line_eyes", renju_line_eyes(0, 0x2f, 15, RENJU_WHITE, RENJU_FOUR), 0);
}

/* White's stone is played on; then a game of too many moves, and one with a code that is none. */
static void games(void) {
    static uint8_t moves[RENJU_MOVES_BYTES + 1] = {112, 113, 113};
    say("game", renju_game(moves, 3, out, RENJU_REPORT_BYTES), 0);
    printf("%u %u %u, H8 is %u, H9 is %u\n", (unsigned)out[0], (unsigned)out[1], (unsigned)out[2],
           (unsigned)out[3 + 112], (unsigned)out[3 + 113]);
    say("game", renju_game(moves, 3, out, RENJU_REPORT_BYTES - 1), 0);
    say("game", renju_game(moves, sizeof moves, out, RENJU_REPORT_BYTES), 0);
    moves[2] = 225;
    say("game", renju_game(moves, 3, out, RENJU_REPORT_BYTES), 0);
}

/* Two moves in view 4, which are not taken back, and in view 0. */
static void records(void) {
    uint8_t moves[] = {112, 128, 225}, record[RENJU_RECORD_BYTES];
    size_t size = 9;
    say("to_tagged", renju_to_tagged(moves, 2, RENJU_LEFT_RIGHT, record, sizeof record), 0);
    say("tagged_view", renju_tagged_view(record, size), 0);
    say("tagged_view", renju_tagged_view(record, size - 1), 0);
    say("from_tagged", renju_from_tagged(record, size, out, sizeof out), 1);
    say("to_tagged", renju_to_tagged(moves, 2, RENJU_SAME, out, sizeof out), 1);
    memcpy(record, out, size);
    say("from_tagged", renju_from_tagged(record, size, out, sizeof out), 1);
    say("to_tagged", renju_to_tagged(moves, 3, RENJU_SAME, out, sizeof out), 1);
}

/* Three black stones and a white one; cells of another length. */
static void counts(void) {
    say("read", read_text("H8,I9,J10/A1"), 0);
    say("counts", renju_counts(cells, sizeof cells), 0);
    say("counts", renju_counts(cells, sizeof cells - 1), 0);
}

/* The second move comes before the first, the first twice; then a foreign game, no point, no room.
 * Of two lists the longer, and two that part. */
static void feeds(void) {
    static uint8_t held[2] = {0};
    static const uint8_t all[] = {112, 128}, other[] = {113};
    say("feed_take", renju_feed_take(7, held, sizeof held, 0, 7, 2, 128), 0);
    say("feed_take", renju_feed_take(7, held, sizeof held, 0, 7, 1, 112), 0);
    say("feed_take", renju_feed_take(7, held, sizeof held, 1, 7, 1, 112), 0);
    say("feed_take", renju_feed_take(7, held, sizeof held, 1, 8, 1, 112), 0);
    say("feed_take", renju_feed_take(7, held, sizeof held, 1, 7, 2, 225), 0);
    say("feed_take", renju_feed_take(7, held, 1, 1, 7, 2, 128), 0);
    say("feed_take", renju_feed_take(7, held, sizeof held, 225, 7, 226, 128), 0);
    printf("%u %u\n", (unsigned)held[0], (unsigned)held[1]);
    say("feed_missing", renju_feed_missing(held, 1, all, 2), 0);
    say("feed_missing", renju_feed_missing(all, 2, held, 1), 0);
    say("feed_missing", renju_feed_missing(all, 2, all, 2), 0);
    say("feed_missing", renju_feed_missing(all, 2, other, 1), 0);
}

/* H8 and I9 written and read back; a text that Black does not begin; a code that is none. */
static void sgf_texts(void) {
    uint8_t moves[] = {112, 128, 225};
    static uint8_t text[RENJU_SGF_BYTES + 1];
    say("to_sgf", renju_to_sgf(moves, 2, text, RENJU_SGF_BYTES), 0);
    printf("%s\n", (const char *)text);
    say("from_sgf", renju_from_sgf(text, 26, out, sizeof out), 1);
    text[14] = 'W';
    say("from_sgf", renju_from_sgf(text, 26, out, sizeof out), 1);
    say("to_sgf", renju_to_sgf(moves, 3, out, sizeof out), 1);
}

static void mended(void) {
    const char *list = "h8, i9,H08";
    uint8_t lines[RENJU_MENDED_BYTES];
    uint32_t word = renju_mend((const uint8_t *)list, strlen(list), lines, sizeof lines);
    say("mend", word, 0);
    printf("%.*s", (int)renju_answer(word), (const char *)lines);
    say("mend", renju_mend((const uint8_t *)list, strlen(list), lines, 9), 0);
}

/* White has an open three on row 8: E8 wins; then a limit that is none, and too little room. */
static void hints(void) {
    static const char text[] = "A1/F8,G8,H8";
    uint8_t cells[RENJU_CELLS_BYTES], line[RENJU_LINE_BYTES] = {67};
    renju_read((const uint8_t *)text, sizeof text - 1, cells, sizeof cells);
    say("win_check", renju_win_check(cells, sizeof cells, RENJU_WHITE, line, 1), 0);
    say("win_check", renju_win_check(cells, sizeof cells, RENJU_BLACK, line, 1), 0);
    say("win_plan", renju_win_plan(cells, sizeof cells, RENJU_WHITE, 1, out, RENJU_LINE_BYTES), 1);
    say("win_plan", renju_win_plan(cells, sizeof cells, RENJU_WHITE, 7, out, RENJU_LINE_BYTES), 1);
    say("win_plan", renju_win_plan(cells, sizeof cells, RENJU_WHITE, 6, out, RENJU_LINE_BYTES - 1), 1);
}

int main(void) {
    texts();
    points();
    verdicts();
    rows();
    lines();
    games();
    records();
    counts();
    feeds();
    sgf_texts();
    mended();
    hints();
    return 0;
}
