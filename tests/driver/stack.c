/* How much stack each call of the library's archive uses, on x86-64.

   A call is made on a stack of its own that was painted before, and the lowest byte that changed tells how much it used: all beneath the
   caller's frame, so with the return address and the arguments that do not go in registers. Each call is made twice, on different
   paints, since a byte may be written with the value of one; the second time the stack has no more than the bound, and the page beneath
   cannot be touched.

   It prints a line a call, and fails where a bound is missed or where a call answers other than it must on that record.
   A new call is a line among those that make a call, a line in `calls`, and its cases in `on_sound` and `on_windows`; a call that names a window has
   a second line in `calls`, for records of several windows. tests/stack compares the names, and the answers that came, with the header. */
#include "frame_history.h"
#include <stdio.h>

void exit(int);
void *mmap(void *, size_t, int, int, int, long);
int mprotect(void *, size_t, int);

enum { ROWS = 512, WORDS = 3 + 4 * ROWS, BYTES = 12 + 24 * ROWS, PAGE = 65536, STACK = 2 * PAGE, MORE = PAGE / 4 };
static const uint32_t NONE = 4294967295u;

/* Of which records something is said: of all, of those that have one window, or several. */
enum { ALL, ONE, SEVERAL };

/* What is lent to a call: the number, the root frame of a window, the record, runs that are long enough for every answer, the out words; a store
   of places, with the point or zoom that goes with it, and the out doubles. Of the record also what it is called, whether it has one window or
   several, and how many levels of documents are visible in the window. */
typedef struct {
  const char *shape, *state;
  int windows;
  uint32_t number, root, words[WORDS], first[4 * ROWS], second[ROWS], outs[3];
  uint8_t bytes[BYTES];
  frame_history_place_entry places[ROWS];
  frame_history_point point;
  double zoom, x, y;
  size_t n, first_n, second_n, bytes_n, entries, levels;
} lent;

typedef uint32_t made(lent *);

/* Each makes one call. It ends with a jump into the library and so uses no stack of its own; those of traverse, traverse_rows, lists, place and
   place_at_zoom, which have more arguments than go in registers, use 8 to 24 bytes. */
static uint32_t fresh(lent *l) { return frame_history_fresh(l->words, l->n); }
static uint32_t open(lent *l) { return frame_history_open(l->words, l->n, l->number, l->outs, l->outs + 1, l->outs + 2); }
static uint32_t navigate(lent *l) { return frame_history_navigate(l->words, l->n, l->number, l->outs, l->outs + 1); }
static uint32_t drop(lent *l) { return frame_history_drop(l->words, l->n, l->number, l->outs, l->outs + 1); }
static uint32_t replace(lent *l) { return frame_history_replace(l->words, l->n, l->number, l->outs, l->outs + 1); }
static uint32_t traverse(lent *l) {
  return frame_history_traverse(l->words, l->n, l->root, (int32_t)l->number, l->first, l->first_n, l->outs);
}
static uint32_t traverse_rows(lent *l) {
  return frame_history_traverse_rows(l->words, l->n, l->root, (int32_t)l->number, (frame_history_change_row *)l->first, l->first_n / 4, l->outs);
}
static uint32_t tab(lent *l) { return frame_history_tab(l->words, l->n, l->outs, l->outs + 1); }
static uint32_t position(lent *l) { return frame_history_position(l->words, l->n, l->root, l->outs, l->outs + 1, l->outs + 2); }
static uint32_t visible(lent *l) { return frame_history_visible(l->words, l->n, l->number, l->outs, l->outs + 1, l->outs + 2); }
static uint32_t lists(lent *l) {
  return frame_history_lists(l->words, l->n, l->root, l->first, l->first_n, l->second, l->second_n, l->outs, l->outs + 1);
}
static uint32_t stretch(lent *l) {
  return frame_history_stretch(l->first, l->first_n, l->second, l->second_n, (int32_t)l->number, l->outs);
}
static uint32_t outline(lent *l) { return frame_history_outline(l->words, l->n, l->root, l->first, l->first_n, l->outs); }
static uint32_t save(lent *l) { return frame_history_save(l->words, l->n, l->bytes, l->bytes_n, l->outs); }
static uint32_t load(lent *l) { return frame_history_load(l->words, l->n, l->bytes, l->bytes_n, l->outs); }
static uint32_t load_old(lent *l) { return frame_history_load_old(l->words, l->n, l->bytes, l->bytes_n, l->outs); }
static uint32_t contents(lent *l) { return frame_history_contents(l->bytes, l->bytes_n, l->outs, l->outs + 1); }
static uint32_t contents_old(lent *l) { return frame_history_contents_old(l->bytes, l->bytes_n, l->outs, l->outs + 1); }
static uint32_t place_itself(lent *l) {
  return frame_history_place_itself(l->words, l->n, (uint64_t *)l->places, 4 * l->entries, l->number);
}
static uint32_t place_at(lent *l) {
  return frame_history_place_at(l->words, l->n, (uint64_t *)l->places, 4 * l->entries, l->number, l->point);
}
static uint32_t place(lent *l) {
  return frame_history_place(l->words, l->n, (uint64_t *)l->places, 4 * l->entries, l->number, l->outs, &l->x, &l->y);
}
static uint32_t place_at_zoom(lent *l) {
  return frame_history_place_at_zoom(l->words, l->n, (uint64_t *)l->places, 4 * l->entries, l->number, l->zoom, l->outs, &l->x, &l->y);
}

/* A call: its name after the prefix; whether it begins with refusal 1 (1), with 1 and 2 (2), or with neither (0); of which records the line is;
   its bound, with what is added for each level; and what it keeps on the stack. */
static const struct { const char *name; made *make; int begins, windows; size_t bound, level; const char *keeps; } calls[] = {
  {"fresh", fresh, 1, ALL, FRAME_HISTORY_STACK, 0, "its return address and that of `memset`, which clears the words"},
  {"open", open, 2, ALL, FRAME_HISTORY_STACK, 0, "saved registers, what the test found, a few numbers; beneath them the test"},
  {"navigate", navigate, 2, ALL, FRAME_HISTORY_STACK, 0, "as open"},
  {"drop", drop, 2, ALL, FRAME_HISTORY_STACK, 0, "as open"},
  {"replace", replace, 2, ALL, FRAME_HISTORY_STACK, 0, "as open"},
  {"tab", tab, 2, ALL, FRAME_HISTORY_STACK, 0, "as open"},
  {"traverse", traverse, 2, ONE, FRAME_HISTORY_STACK, 0, "as open, once more for the part that both calls that traverse share, and one of its seven arguments"},
  {"traverse of several windows", traverse, 2, SEVERAL, FRAME_HISTORY_WINDOW_STACK, 0, "as traverse, and a copy of the window's rows"},
  {"traverse_rows", traverse_rows, 2, ONE, FRAME_HISTORY_STACK, 0, "as traverse"},
  {"traverse_rows of several windows", traverse_rows, 2, SEVERAL, FRAME_HISTORY_WINDOW_STACK, 0, "as traverse of several windows"},
  {"position", position, 2, ONE, FRAME_HISTORY_STACK, 0, "as open"},
  {"position of several windows", position, 2, SEVERAL, FRAME_HISTORY_STACK, 0, "as open, and beneath the test the walk over the windows"},
  {"visible", visible, 2, ALL, FRAME_HISTORY_STACK, 0, "as open: the climb calls itself and is compiled to a loop"},
  {"lists", lists, 2, ONE, FRAME_HISTORY_STACK, 0, "as open, and three of its nine arguments"},
  {"lists of several windows", lists, 2, SEVERAL, FRAME_HISTORY_WINDOW_STACK, 0, "as traverse of several windows, and three of its nine arguments"},
  {"stretch", stretch, 0, ALL, FRAME_HISTORY_STACK, 0, "its return address and the answer, before it is told"},
  {"outline", outline, 2, ONE, FRAME_HISTORY_OUTLINE_STACK, FRAME_HISTORY_OUTLINE_LEVEL,
   "as open; and for each level a return address, saved registers and where it stands among a document's frames, since the outline of a "
   "document calls that of its frames (document 01)"},
  {"outline of several windows", outline, 2, SEVERAL, FRAME_HISTORY_OUTLINE_STACK, FRAME_HISTORY_OUTLINE_LEVEL,
   "as outline"},
  {"save", save, 2, ALL, FRAME_HISTORY_SAVE_STACK, 0,
   "as open, and two lists of 512 numbers, in which the rows of a record with many frames are put in their order"},
  {"load", load, 1, ALL, FRAME_HISTORY_LOAD_STACK, 0,
   "a record of 2051 words, 8204 bytes, since the host's words are written only once the bytes are known to be Save's"},
  {"load_old", load_old, 1, ALL, FRAME_HISTORY_LOAD_STACK, 0, "as load"},
  {"contents", contents, 0, ALL, FRAME_HISTORY_STACK, 0, "saved registers and the sums: it has no record"},
  {"contents_old", contents_old, 0, ALL, FRAME_HISTORY_STACK, 0, "as contents"},
  {"place_itself", place_itself, 2, ALL, FRAME_HISTORY_STACK, 0, "as open, once more for the part that both calls that set a place share"},
  {"place_at", place_at, 2, ALL, FRAME_HISTORY_STACK, 0, "as place_itself"},
  {"place", place, 2, ALL, FRAME_HISTORY_STACK, 0, "as open, with the place before it is told, and two of its eight arguments"},
  {"place_at_zoom", place_at_zoom, 2, ALL, FRAME_HISTORY_STACK, 0, "as place"},
};
enum { CALLS = sizeof calls / sizeof *calls };

/* What was found of each call: the least that it used where it was accepted, the most of all, on which record that was first, the
   bound there, and which answers came. */
static struct { size_t least, most, bound; const char *shape, *state; unsigned answers; } found[CALLS];
static int missed;

/* The stack's lowest byte; the page beneath cannot be touched. */
static uint8_t *stack;

static void make_stack(void) {
  uint8_t *whole = mmap(0, PAGE + STACK, 0, 0x22, -1, 0); /* private, anonymous, closed */
  if (whole == (uint8_t *)-1 || mprotect(whole + PAGE, STACK, 3) != 0) exit(3);
  stack = whole + PAGE;
}

/* Makes a call with the stack pointer at `top`, a multiple of 16. */
uint32_t make_at(uint8_t *top, made *make, lent *l);
__asm__(".text\n"
        "make_at:\n"
        "  pushq %rbx\n"
        "  movq %rsp, %rbx\n"
        "  movq %rdi, %rsp\n"
        "  movq %rdx, %rdi\n"
        "  callq *%rsi\n"
        "  movq %rbx, %rsp\n"
        "  popq %rbx\n"
        "  retq\n");

/* Says which call on which record went wrong. */
static void say(int c, const lent *l, const char *what, size_t is, const char *than, size_t wanted) {
  printf("%s of %d on %s, %s: it %s %zu %s %zu\n", calls[c].name, (int)l->number, l->shape, l->state, what, is, than, wanted);
  missed = 1;
}

/* Makes a call that must give this answer, with so many bytes of stack; how many of them it used. */
static size_t used(int c, const lent *given, uint32_t answer, size_t room, uint8_t paint) {
  static lent l;
  size_t i;
  l = *given;
  for (i = 0; i < room; i++) stack[i] = paint;
  uint32_t came = make_at(stack + room, calls[c].make, &l);
  if (came != answer) say(c, given, "answered", came, "and not", answer);
  for (i = 0; i < room && stack[i] == paint; i++) {}
  return room - i;
}

/* Measures a call that must give this answer. */
static void measure(int c, const lent *l, uint32_t answer) {
  size_t bound = calls[c].bound + calls[c].level * l->levels, most = used(c, l, answer, bound + MORE, 0x5a);
  if (most > bound) say(c, l, "used", most, "bytes of", bound);
  size_t again = used(c, l, answer, most > bound ? bound + MORE : bound, 0xa5);
  if (most < again) most = again;
  if (answer == 0 && (found[c].least == 0 || most < found[c].least)) found[c].least = most;
  found[c].answers |= 1u << answer;
  if (most <= found[c].most) return;
  found[c].most = most;
  found[c].bound = bound;
  found[c].shape = l->shape;
  found[c].state = l->state;
}

/* Whether a line of `calls` is of this call and record. */
static int is_of(int c, made *make, const lent *l) { return calls[c].make == make && (calls[c].windows == ALL || calls[c].windows == l->windows); }

/* The same, of the call that is made so, with this number. */
static void try(made *make, lent *l, uint32_t number, uint32_t answer) {
  int c = 0;
  while (c < CALLS && !is_of(c, make, l)) c++;
  if (c == CALLS) {
    printf("a call that is tried is not among `calls`\n");
    exit(1);
  }
  l->number = number;
  measure(c, l, answer);
}

/* The words of a row: document, frame, parent, shown. */
static uint32_t *row(lent *l, size_t at) { return l->words + 3 + 4 * at; }
static uint32_t *last(lent *l) { return row(l, l->words[0] - 1); }

/* Makes a call that builds a record and must be accepted; its first out word. */
static uint32_t build(made *make, lent *l, uint32_t number) {
  l->number = number;
  if (make(l) != 0) {
    printf("a call that builds the record %s, %s is refused\n", l->shape, l->state);
    exit(1);
  }
  return l->outs[0];
}

/* The shapes of the benchmark, bench/measure/shapes.rs. */
enum { DESK, WIDE, DEEP, WORST, SHAPES };
static const char *const shapes[] = {"desk", "wide", "deep", "worst"};

/* Three frames, the two beneath the root navigated in turn; every row a frame beneath the root, or beneath the row before it. */
static void build_called(lent *l, int shape, size_t rows) {
  uint32_t latest[3] = {0, 0, 0};
  build(fresh, l, 0);
  for (size_t i = 1; i < rows; i++) {
    size_t slot = shape == DESK ? 1 + (i - 1) % 2 : 0;
    if (shape == DESK && i > 2) latest[slot] = build(navigate, l, latest[slot]);
    else if (shape == WIDE) build(open, l, 0);
    else latest[slot] = build(open, l, shape == DEEP ? latest[0] : 0);
  }
}

/* Every row a frame, frame numbers falling, parents the documents 0 and 1 in turn. */
static void build_worst(lent *l, size_t rows) {
  for (size_t k = 0; k < WORDS; k++) l->words[k] = k < 3 ? (uint32_t)rows : 0;
  for (uint32_t i = 0; i < rows; i++) {
    row(l, i)[0] = i;
    row(l, i)[1] = (uint32_t)rows - 1 - i;
    row(l, i)[2] = i == 0 ? NONE : i > 1 ? (i + 1) % 2 : 0;
    row(l, i)[3] = 1;
  }
}

/* Runs of the whole length for a record of this name. */
static void begin(lent *l, const char *shape, const char *state, int windows) {
  l->shape = shape;
  l->state = state;
  l->windows = windows;
  l->n = WORDS;
  l->first_n = 4 * ROWS;
  l->second_n = ROWS;
  l->bytes_n = BYTES;
}

/* The record of a shape with so many of its 512 rows in use, and its root frame. */
static void build_shape(lent *l, int shape, size_t rows) {
  if (shape == WORST) build_worst(l, rows);
  else build_called(l, shape, rows);
  l->root = row(l, 0)[1];
}

/* What becomes of a shape: with a row left; with all rows in use; with a navigation from its last document, or from its root's, for the
   last row; the former gone all the way back; with a row left and no number; with a row left and numbers that do not rise. */
enum { SPARE, FULL, STEPPED, HIDDEN, BACK, USED_UP, MIXED, STATES };
static const char *const states[] = {"a row left", "full", "a step last", "its root navigated", "all steps upcoming", "no number left", "numbers mixed"};

/* The documents 0 to n - 1 of a record in another order, so that the test of a record has to look for most of them among the later ones. */
static void mix(lent *l) {
  uint32_t n = l->words[0];
  for (size_t i = 0; i < n; i++) {
    row(l, i)[0] = (5 * row(l, i)[0] + 3) % n;
    if (row(l, i)[2] != NONE) row(l, i)[2] = (5 * row(l, i)[2] + 3) % n;
  }
}

/* No number left for a document or a frame. */
static void use_up(lent *l) { l->words[1] = l->words[2] = NONE; }

/* Goes all the way back in the window of this root frame. */
static void go_back(lent *l, uint32_t root) {
  l->root = root;
  build(traverse, l, -build(position, l, 0));
}

static void build_state(lent *l, int shape, int state) {
  begin(l, shapes[shape], states[state], ONE);
  build_shape(l, shape, state == FULL ? ROWS : ROWS - 1);
  if (state == STEPPED || state == BACK) build(navigate, l, last(l)[0]);
  if (state == HIDDEN) build(navigate, l, row(l, 0)[0]);
  if (state == BACK) go_back(l, l->root);
  if (state == USED_UP) use_up(l);
  if (state == MIXED) mix(l);
}

/* Shapes of several windows: a main window of three frames and a card of two, the frames beneath their roots navigated in turn; every row a
   window; and a card beside a window whose every row is a frame beneath the row before it. */
enum { TURN, CARDS, BESIDE, WINDOW_SHAPES };
static const char *const window_shapes[] = {"two windows in turn", "every row a window", "a card beside deep"};

/* What becomes of one of them: with a row left; with all rows in use; with a row left and the first window gone all the way back, so that the rows
   as a whole are not in order; with a row left and no number; with a row left and numbers that do not rise, and the first window gone back. */
enum { LEFT, FILLED, APART, NO_NUMBER, NOT_RISING, WINDOW_STATES };
static const char *const window_states[] = {"a row left", "full", "the first window back", "no number left", "numbers mixed"};

/* Two windows in turn, of so many rows. */
static void build_turn(lent *l, size_t rows) {
  uint32_t latest[3];
  build(fresh, l, 0);
  latest[0] = build(open, l, 0);
  latest[1] = build(open, l, 0);
  latest[2] = build(open, l, build(tab, l, 0));
  for (size_t i = 5; i < rows; i++) latest[i % 3] = build(navigate, l, latest[i % 3]);
}

/* The other two shapes of several windows. */
static void build_cards(lent *l, int shape, size_t rows) {
  build(fresh, l, 0);
  uint32_t end = build(tab, l, 0);
  for (size_t i = 2; i < rows; i++) end = shape == CARDS ? build(tab, l, 0) : build(open, l, end);
}

/* A record of several windows. */
static void build_windows(lent *l, int shape, int state) {
  begin(l, window_shapes[shape], window_states[state], SEVERAL);
  if (shape == TURN) build_turn(l, state == FILLED ? ROWS : ROWS - 1);
  else build_cards(l, shape, state == FILLED ? ROWS : ROWS - 1);
  if (state == APART || state == NOT_RISING) go_back(l, row(l, 0)[1]);
  if (state == NO_NUMBER) use_up(l);
  if (state == NOT_RISING) mix(l);
}

/* The latest row that has no parent. */
static uint32_t *last_top(lent *l) {
  uint32_t *at = last(l);
  while (at[2] != NONE) at -= 4;
  return at;
}

/* How many levels of documents are visible in the window, by its outline. */
static void count_levels(lent *l) {
  uint32_t pairs = build(outline, l, 0), depth = 0;
  for (uint32_t i = 0; i < pairs; i++) if (depth < l->first[2 * i]) depth = l->first[2 * i];
  l->levels = depth + 1;
}

/* Tab, which makes no room and needs a row and both numbers. */
static void on_tab(lent *l) {
  uint32_t used_up = l->words[1] == NONE ? FRAME_HISTORY_USED_UP : 0;
  try(tab, l, 0, l->words[0] == ROWS ? FRAME_HISTORY_FULL : used_up);
}

/* Open and Navigate from the last document, Navigate from the second where all steps are upcoming, and both from a document that is hidden
   at the end of the longest climb. */
static void on_growing(lent *l, int state) {
  static const uint32_t answers[] = {0, FRAME_HISTORY_FULL, FRAME_HISTORY_FULL, FRAME_HISTORY_FULL, FRAME_HISTORY_HIDDEN, FRAME_HISTORY_USED_UP, 0};
  made *const grow[] = {open, navigate};
  for (int g = 0; g < 2; g++) {
    try(grow[g], l, last(l)[0], answers[state]);
    try(grow[g], l, l->words[1], FRAME_HISTORY_ABSENT);
    if (state == HIDDEN) try(grow[g], l, last(l)[-4], FRAME_HISTORY_HIDDEN);
  }
  if (state == BACK) try(navigate, l, row(l, 1)[0], 0);
}

/* Drop of the root frame, of none, of the second row's frame, and of the last row's frame or the one before it. */
static void on_drop(lent *l, int state) {
  uint32_t answer = state == HIDDEN ? FRAME_HISTORY_HIDDEN : 0;
  try(drop, l, row(l, 0)[1], FRAME_HISTORY_ROOT_FRAME);
  try(drop, l, l->words[2], FRAME_HISTORY_ABSENT);
  if (l->words[0] == 1) return;
  try(drop, l, row(l, 1)[1], answer);
  try(drop, l, last(l)[state == HIDDEN ? -3 : 1], answer);
}

/* Replace of the last document and of the root's, of one that is not there, of the second where all steps are upcoming, and of one that is
   hidden at the end of the longest climb. */
static void on_replace(lent *l, int state) {
  uint32_t answer = state == USED_UP ? FRAME_HISTORY_USED_UP : 0;
  try(replace, l, last(l)[0], state == BACK ? FRAME_HISTORY_HIDDEN : answer);
  try(replace, l, row(l, 0)[0], state == HIDDEN ? FRAME_HISTORY_HIDDEN : answer);
  try(replace, l, l->words[1], FRAME_HISTORY_ABSENT);
  if (state == BACK) try(replace, l, row(l, 1)[0], 0);
  if (state == HIDDEN) try(replace, l, last(l)[-4], FRAME_HISTORY_HIDDEN);
}

/* Both calls that traverse: not at all, one step and all steps either way, a step too far, the least number, and with no room. */
static void on_traverse(lent *l) {
  made *const both[] = {traverse, traverse_rows};
  uint32_t taken = build(position, l, 0), upcoming = l->outs[1] - taken;
  for (int b = 0; b < 2; b++) {
    try(both[b], l, 0, 0);
    try(both[b], l, -taken, 0);
    try(both[b], l, upcoming, 0);
    try(both[b], l, -taken - 1, FRAME_HISTORY_BEYOND);
    try(both[b], l, upcoming + 1, FRAME_HISTORY_BEYOND);
    try(both[b], l, 2147483648u, FRAME_HISTORY_BEYOND);
    if (taken > 0) try(both[b], l, -1u, 0);
    if (upcoming > 0) try(both[b], l, 1, 0);
    l->first_n = 0;
    if (taken > 0) try(both[b], l, -taken, FRAME_HISTORY_SHORT_BUFFER);
    if (upcoming > 0) try(both[b], l, upcoming, FRAME_HISTORY_SHORT_BUFFER);
    l->first_n = 4 * ROWS;
  }
}

/* The calls that name a window, by the next frame number, by none, and by the last row's frame where that is no root frame. */
static void on_no_window(lent *l) {
  made *const all[] = {traverse, traverse_rows, position, lists, outline};
  uint32_t root = l->root, others[] = {l->words[2], NONE, last(l)[1]};
  for (int i = 0; i < (last(l)[2] == NONE ? 2 : 3); i++) {
    l->root = others[i];
    for (int c = 0; c < 5; c++) try(all[c], l, 0, FRAME_HISTORY_NO_WINDOW);
  }
  l->root = root;
}

/* Position; Visible of the last document, the one before it, the root's, and one that is not there. */
static void on_asking(lent *l) {
  try(position, l, 0, 0);
  try(visible, l, last(l)[0], 0);
  if (l->words[0] > 1) try(visible, l, last(l)[-4], 0);
  try(visible, l, row(l, 0)[0], 0);
  try(visible, l, l->words[1], FRAME_HISTORY_ABSENT);
}

/* Lists with more room than they need, with just as much, and with a word less in each run. */
static void on_lists(lent *l) {
  uint32_t taken = build(position, l, 0), upcoming = l->outs[1] - taken;
  try(lists, l, 0, 0);
  l->first_n = taken;
  l->second_n = upcoming;
  try(lists, l, 0, 0);
  l->first_n = taken - 1;
  if (taken > 0) try(lists, l, 0, FRAME_HISTORY_SHORT_BUFFER);
  l->first_n = taken;
  l->second_n = upcoming - 1;
  if (upcoming > 0) try(lists, l, 0, FRAME_HISTORY_SHORT_BUFFER);
  l->first_n = 4 * ROWS;
  l->second_n = ROWS;
}

/* Outline likewise. */
static void on_outline(lent *l) {
  try(outline, l, 0, 0);
  l->first_n = 2 * build(outline, l, 0);
  try(outline, l, 0, 0);
  l->first_n--;
  try(outline, l, 0, FRAME_HISTORY_SHORT_BUFFER);
  l->first_n = 4 * ROWS;
}

/* Save likewise. */
static void on_save(lent *l) {
  try(save, l, 0, 0);
  l->bytes_n = build(save, l, 0);
  try(save, l, 0, 0);
  l->bytes_n--;
  try(save, l, 0, FRAME_HISTORY_SHORT_BUFFER);
  l->bytes_n = BYTES;
}

/* A number of saved bytes. */
static void put(uint8_t *bytes, uint32_t v) { for (int i = 0; i < 4; i++) bytes[i] = (uint8_t)(v >> (24 - 8 * i)); }
static uint32_t get(const uint8_t *b) { return (uint32_t)b[0] << 24 | (uint32_t)b[1] << 16 | (uint32_t)b[2] << 8 | b[3]; }

/* A loading call on bytes with a number changed. */
static void on_changed(made *loads, lent *l, size_t at, uint32_t v) {
  uint32_t was = get(l->bytes + at);
  put(l->bytes + at, v);
  try(loads, l, 0, FRAME_HISTORY_NOT_SAVED);
  put(l->bytes + at, was);
}

/* The loading call of a form on its bytes, of this length and with entries of so many: whole; cut, longer, empty; with each number of the head,
   of the last frame and of the last entry changed; and into a record with room for one row. */
static void on_bytes(made *loads, lent *l, size_t length, size_t entry) {
  size_t frame = 16 * get(l->bytes) - 4, docs = get(l->bytes + frame + 8);
  l->bytes_n = length;
  try(loads, l, 0, 0);
  on_changed(loads, l, 0, get(l->bytes) + 1);
  on_changed(loads, l, 4, 0);
  on_changed(loads, l, 8, 0);
  on_changed(loads, l, frame, NONE);
  on_changed(loads, l, frame + 4, NONE - 1);
  on_changed(loads, l, frame + 8, (uint32_t)docs + 1);
  on_changed(loads, l, frame + 12, (uint32_t)docs);
  on_changed(loads, l, length - entry, NONE);
  on_changed(loads, l, length - 4, NONE);
  const size_t lengths[] = {0, length - 1, length + 1};
  for (int i = 0; i < 3; i++) {
    l->bytes_n = lengths[i] < BYTES ? lengths[i] : 0;
    try(loads, l, 0, FRAME_HISTORY_NOT_SAVED);
  }
  l->bytes_n = length;
  l->n = 7;
  try(loads, l, 0, l->words[0] > 1 ? FRAME_HISTORY_FULL : 0);
  l->n = WORDS;
}

/* The call that reads the contents of a form on its bytes, of this length: whole; with bodies that no loading call takes; cut, longer, empty; with no frame, one
   more, as many as there can be, and a last one that shows none of its documents or has too many. */
static void on_contents(made *tells, lent *l, size_t length) {
  size_t frame = 16 * get(l->bytes) - 4, docs = get(l->bytes + frame + 8);
  uint32_t was = get(l->bytes + length - 4);
  l->bytes_n = length;
  try(tells, l, 0, 0);
  put(l->bytes + length - 4, NONE);
  try(tells, l, 0, 0);
  put(l->bytes + length - 4, was);
  on_changed(tells, l, 0, 0);
  on_changed(tells, l, 0, get(l->bytes) + 1);
  on_changed(tells, l, 0, NONE);
  on_changed(tells, l, frame + 8, 513);
  on_changed(tells, l, frame + 12, (uint32_t)docs);
  const size_t lengths[] = {0, length - 1, length + 1};
  for (int i = 0; i < 3; i++) {
    l->bytes_n = lengths[i] < BYTES ? lengths[i] : 0;
    try(tells, l, 0, FRAME_HISTORY_NOT_SAVED);
  }
  l->bytes_n = length;
}

/* The bytes that Save wrote in the old form, which has no row places; their length. */
static size_t to_old(lent *l) {
  uint8_t *bodies = l->bytes + 12 + 16 * get(l->bytes);
  for (size_t i = 0; i < l->words[0]; i++) put(bodies + 4 * i, get(bodies + 8 * i));
  return (size_t)(bodies - l->bytes) + 4 * l->words[0];
}

/* Both loading calls: Load on what Save writes, with a place twice too; the other on the same bytes, and on those of the old form, which only records
   of one window have whose numbers rise. The contents of all of them. */
static void on_load(lent *l, int rises) {
  size_t length = build(save, l, 0), bodies = 12 + 16 * get(l->bytes);
  on_bytes(load, l, length, 8);
  on_changed(load, l, bodies + 4, 1);
  try(load_old, l, 0, FRAME_HISTORY_NOT_SAVED);
  on_contents(contents, l, length);
  try(contents_old, l, 0, FRAME_HISTORY_NOT_SAVED);
  length = to_old(l);
  on_contents(contents_old, l, length);
  if (rises && l->windows == ONE) on_bytes(load_old, l, length, 4);
  l->bytes_n = length;
  if (l->windows == SEVERAL) try(load_old, l, 0, FRAME_HISTORY_NOT_SAVED);
  try(load, l, 0, FRAME_HISTORY_NOT_SAVED);
  l->bytes_n = BYTES;
}

/* A store with an entry for each row, at a point: of the row's document, of one that is not in the record, or of none. */
enum { OWN, GONE, FREE, OWNERS };

static void build_places(lent *l, int owner) {
  l->entries = l->words[0];
  l->point = (frame_history_point){1.5, -0.0};
  l->zoom = 1.25;
  for (size_t i = 0; i < l->entries; i++) {
    uint64_t document = owner == OWN ? row(l, i)[0] : owner == GONE ? FRAME_HISTORY_FREE + 1ul + i : FRAME_HISTORY_FREE;
    l->places[i] = (frame_history_place_entry){document, 1, (double)i, 0.5};
  }
}

/* Those that are lent a store, of this document. */
static void on_store(lent *l, uint32_t number, uint32_t answer) {
  made *const all[] = {place_itself, place_at, place, place_at_zoom};
  for (int c = 0; c < 4; c++) try(all[c], l, number, answer);
}

/* All of them of the first row's document, the last one's, and one that is not there, on each store; setting with no entry left; with what
   is not finite; and with a last entry that does not pass. */
static void on_places(lent *l) {
  for (int owner = 0; owner < OWNERS; owner++) {
    build_places(l, owner);
    on_store(l, row(l, 0)[0], 0);
    on_store(l, last(l)[0], 0);
    on_store(l, l->words[1], FRAME_HISTORY_ABSENT);
  }
  build_places(l, OWN);
  l->entries--;
  try(place_itself, l, last(l)[0], FRAME_HISTORY_NO_ENTRY);
  try(place_at, l, last(l)[0], FRAME_HISTORY_NO_ENTRY);
  build_places(l, OWN);
  l->point.y = l->zoom = __builtin_inf();
  try(place_at, l, last(l)[0], FRAME_HISTORY_NOT_FINITE);
  try(place_at_zoom, l, last(l)[0], FRAME_HISTORY_NOT_FINITE);
  frame_history_place_entry *end = l->places + l->words[0] - 1;
  end->y = l->zoom = 1e300;
  try(place_at_zoom, l, last(l)[0], FRAME_HISTORY_NOT_FINITE);
  end->y = __builtin_nan("");
  on_store(l, last(l)[0], FRAME_HISTORY_BAD_PLACES);
  end->kind = 2;
  on_store(l, last(l)[0], FRAME_HISTORY_BAD_PLACES);
  end->kind = 0;
  end->document = l->places[0].document;
  if (end != l->places) on_store(l, last(l)[0], FRAME_HISTORY_BAD_PLACES);
}

/* Every call on a sound record of one window. */
static void on_sound(lent *l, int state) {
  count_levels(l);
  try(fresh, l, 0, 0);
  on_tab(l);
  on_growing(l, state);
  on_drop(l, state);
  on_replace(l, state);
  on_traverse(l);
  on_asking(l);
  on_lists(l);
  on_outline(l);
  on_no_window(l);
  on_save(l);
  on_load(l, state != MIXED);
  on_places(l);
}

/* Open, Navigate and Replace of this document, by whether it is visible and what is left. */
static void on_document(lent *l, uint32_t document) {
  uint32_t hidden = build(visible, l, document) ? 0 : FRAME_HISTORY_HIDDEN;
  uint32_t used_up = l->words[1] == NONE ? FRAME_HISTORY_USED_UP : 0;
  uint32_t full = l->words[0] == ROWS ? FRAME_HISTORY_FULL : used_up;
  try(open, l, document, hidden ? hidden : full);
  try(navigate, l, document, hidden ? hidden : full);
  try(replace, l, document, hidden ? hidden : used_up);
}

/* Every call on a sound record of several windows; those that name one, of the first and of the last. */
static void on_windows(lent *l, int state) {
  const uint32_t roots[] = {row(l, 0)[1], last_top(l)[1]};
  try(fresh, l, 0, 0);
  on_tab(l);
  on_document(l, row(l, 0)[0]);
  on_document(l, last_top(l)[0]);
  on_document(l, last(l)[0]);
  try(drop, l, roots[0], FRAME_HISTORY_ROOT_FRAME);
  try(drop, l, roots[1], FRAME_HISTORY_ROOT_FRAME);
  if (last(l)[2] != NONE) try(drop, l, last(l)[1], 0);
  for (int r = 0; r < 2; r++) {
    l->root = roots[r];
    count_levels(l);
    on_traverse(l);
    on_asking(l);
    on_lists(l);
    on_outline(l);
    on_no_window(l);
  }
  on_save(l);
  on_load(l, state != NOT_RISING);
  on_places(l);
}

/* Every call that begins with the test of soundness, on a record with a word changed. */
static void on_unsound(lent *l, uint32_t *word, uint32_t v) {
  uint32_t was = *word;
  *word = v;
  for (int c = 0; c < CALLS; c++) if (calls[c].begins == 2 && is_of(c, calls[c].make, l)) try(calls[c].make, l, row(l, 0)[0], FRAME_HISTORY_UNSOUND);
  *word = was;
}

/* Those on a record with each word of its head and of its last row changed, and with a word past its rows. */
static void on_damaged(lent *l) {
  on_unsound(l, l->words, ROWS + 1);
  on_unsound(l, l->words + 1, 0);
  on_unsound(l, l->words + 2, 0);
  on_unsound(l, last(l), 0);
  on_unsound(l, last(l) + 1, NONE);
  on_unsound(l, last(l) + 2, NONE - 1);
  on_unsound(l, last(l) + 3, 2);
  on_unsound(l, last(l) + 3, 1 - last(l)[3]);
  if (l->words[0] < ROWS) on_unsound(l, l->words + WORDS - 1, 1);
}

/* Those on two windows in turn where a frame of the first is gone back by itself: that window has upcoming steps before a shown one. */
static void on_crossed(lent *l) {
  uint32_t frame = row(l, 1)[1], *shown = last(l);
  while (shown[1] != frame || shown[3] == 0) shown -= 4;
  shown[3] = 0;
  on_unsound(l, row(l, 1) + 3, 1);
  shown[3] = 1;
}

/* Every call that is lent a record, on one that is too short; and Stretch, which is lent none. */
static void on_others(lent *l) {
  l->state = "six words";
  l->n = 6;
  for (int c = 0; c < CALLS; c++) if (calls[c].begins > 0 && is_of(c, calls[c].make, l)) try(calls[c].make, l, 0, FRAME_HISTORY_SHORT_RECORD);
  l->shape = "two lists";
  l->state = "512 entries each";
  l->first_n = ROWS;
  try(stretch, l, 0, 0);
  try(stretch, l, ROWS, 0);
  try(stretch, l, -(uint32_t)ROWS, 0);
  try(stretch, l, ROWS + 1, FRAME_HISTORY_BEYOND);
  try(stretch, l, -(uint32_t)ROWS - 1, FRAME_HISTORY_BEYOND);
  try(stretch, l, 2147483648u, FRAME_HISTORY_BEYOND);
}

/* The line of a call. */
static void print(int c) {
  printf("| %s | %zu | %zu | %s, %s | %zu |", calls[c].name, found[c].least, found[c].most, found[c].shape, found[c].state, found[c].bound);
  for (int k = 0; k < 32; k++) if (found[c].answers >> k & 1) printf(" %d", k);
  printf(" | %s |\n", calls[c].keeps);
}

int main(void) {
  static lent l;
  make_stack();
  for (int shape = 0; shape < SHAPES; shape++)
    for (int state = 0; state < STATES; state++) {
      build_state(&l, shape, state);
      on_sound(&l, state);
      if (state == SPARE || state == FULL || state == BACK || state == MIXED) on_damaged(&l);
    }
  for (int shape = 0; shape < WINDOW_SHAPES; shape++)
    for (int state = 0; state < WINDOW_STATES; state++) {
      build_windows(&l, shape, state);
      on_windows(&l, state);
      if (state != NO_NUMBER) on_damaged(&l);
      if (shape == TURN && state == LEFT) on_crossed(&l);
    }
  begin(&l, "fresh", "room for 512 rows", ONE);
  build(fresh, &l, 0);
  l.root = 0;
  on_sound(&l, SPARE);
  on_others(&l);
  for (int c = 0; c < CALLS; c++) print(c);
  return missed;
}
