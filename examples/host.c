/* A clerk at the order desk logs in, and Back never comes to the login page again. A stock list and a quotation stand side by side in one
   window. The clerk scrolls down the quotation, goes on in both, goes back once and finds the line again, and follows another link. What was
   ahead is gone, and its number never comes back. A click that comes too late, from a frame that is no longer to be seen, is refused, and
   support is told which document hides it. Then the clerk picks cash sale, and the quotation's page takes its price frame out. In the
   evening the history is saved, and loaded again as another desk would; and one that was saved before replacing came is loaded by its own
   call and saved in the new form.

   At another desk a customer card pops up beside the main window, in the same table. Each window goes its own way and has a Back of its own: going
   back in one leaves the documents of the other where they are, and what is ahead in one stays while the other goes on.

   A list of saved windows greys Back and Forward by the contents of the saved bytes, before any of them is loaded.

   Link with libframe_history.a, which `./library` writes. */
#include "frame_history.h"
#include <stdio.h>

enum { ROWS = 8, WORDS = 3 + 4 * ROWS, BYTES = 12 + 24 * ROWS, ENTRIES = 3 };

/* The main window, by its root frame. */
enum { MAIN = 0 };

/* What a call returned that should not have been refused. */
static int refused(const char *call, uint32_t number) {
  if (number != 0) printf("%s: refused, number %u\n", call, (unsigned)number);
  return number != 0;
}

/* Where a window stands. */
static void stands(const uint32_t *words, uint32_t root) {
  uint32_t position, steps, length;
  if (!refused("position", frame_history_position(words, WORDS, root, &position, &steps, &length)))
    printf("  position %u of %u, length %u\n", (unsigned)position, (unsigned)steps, (unsigned)length);
}

/* A new window with the login page, which gives way to the desk in its own row: no step, and nothing to go back to. */
static int login(uint32_t *words, uint32_t *desk) {
  uint32_t changes[4 * ROWS], count, hiding, number;
  if (refused("fresh", frame_history_fresh(words, WORDS))) return 1;
  if (refused("replace", frame_history_replace(words, WORDS, 0, desk, &hiding))) return 1;
  printf("login page: document 0; after the login document %u is in its place\n", (unsigned)*desk);
  number = frame_history_traverse(words, WORDS, MAIN, -1, changes, 4 * ROWS, &count);
  printf("back: refused, number %u\n", (unsigned)number);
  stands(words, MAIN);
  return number != FRAME_HISTORY_BEYOND;
}

/* Goes back or forward in a window, and tells what changed. */
static int go(uint32_t *words, uint32_t root, const char *where, int32_t delta) {
  uint32_t changes[4 * ROWS], count;
  if (refused("traverse", frame_history_traverse(words, WORDS, root, delta, changes, 4 * ROWS, &count))) return 1;
  printf("%s: %u %s\n", where, (unsigned)count, count == 1 ? "change" : "changes");
  for (uint32_t i = 0; i < count; i++)
    printf("  frame %u: document %u, then %u, visible %u\n", (unsigned)changes[4 * i], (unsigned)changes[4 * i + 1],
           (unsigned)changes[4 * i + 2], (unsigned)changes[4 * i + 3]);
  stands(words, root);
  return 0;
}

/* Whether a document is visible, and if it is not, which document hides it; and how far that had to be asked upwards. */
static void sight(const uint32_t *words, uint32_t document) {
  uint32_t answer, hiding, links;
  if (refused("visible", frame_history_visible(words, WORDS, document, &answer, &hiding, &links))) return;
  if (answer == 1) printf("  document %u is visible", (unsigned)document);
  else printf("  document %u is hidden by document %u", (unsigned)document, (unsigned)hiding);
  printf(" (links followed: %u)\n", (unsigned)links);
}

/* A click in a document that is hidden: `hiding` is the one out word that a refusal writes, and refusal 5 alone writes it. */
static int click(uint32_t *words, uint32_t from, uint32_t hider) {
  uint32_t document = 7, hiding = 7, number = frame_history_navigate(words, WORDS, from, &document, &hiding);
  printf("a late click in document %u: refused, number %u, hidden by document %u\n", (unsigned)from, (unsigned)number, (unsigned)hiding);
  return number != FRAME_HISTORY_HIDDEN || hiding != hider || document != 7;
}

/* The store of scroll places, with all its entries free, and as the library takes it. */
static frame_history_place_entry entries[ENTRIES] = {{FRAME_HISTORY_FREE, 0, 0, 0}, {FRAME_HISTORY_FREE, 0, 0, 0}, {FRAME_HISTORY_FREE, 0, 0, 0}};
static uint64_t *const places = (uint64_t *)entries;
enum { PLACES = 4 * ENTRIES };

/* Notes how far down a document the clerk has scrolled. */
static int scroll(const uint32_t *words, uint32_t document, double y) {
  frame_history_point point = {0, y};
  if (refused("place_at", frame_history_place_at(words, WORDS, places, PLACES, document, point))) return 1;
  printf("document %u is scrolled down by %g\n", (unsigned)document, y);
  return 0;
}

/* Where a document has to stand when it is shown again; of a point also where that is at a page zoom. */
static int restore(const uint32_t *words, uint32_t document, double zoom) {
  uint32_t kind;
  double x, y;
  if (refused("place", frame_history_place(words, WORDS, places, PLACES, document, &kind, &x, &y))) return 1;
  if (kind == 0) {
    printf("  document %u places itself\n", (unsigned)document);
    return 0;
  }
  printf("  document %u is scrolled down by %g", (unsigned)document, y);
  if (refused("place_at_zoom", frame_history_place_at_zoom(words, WORDS, places, PLACES, document, zoom, &kind, &x, &y))) return 1;
  printf(", at zoom %g by %g\n", zoom, y);
  return 0;
}

/* Which documents the store has entries of. */
static void kept(void) {
  printf("places are kept of documents");
  for (int i = 0; i < ENTRIES; i++)
    if (entries[i].document != FRAME_HISTORY_FREE) printf(" %u", (unsigned)entries[i].document);
  printf("\n");
}

/* A line of the list of saved windows, by position and steps. */
static void listed(uint32_t position, uint32_t steps) {
  printf("  in the list of windows: Back %s, Forward %s\n", position > 0 ? "works" : "is grey", position < steps ? "works" : "is grey");
}

/* Saves a record, lists it and loads it again: 0 where the words are the same. */
static int exchange(const uint32_t *words) {
  uint8_t bytes[BYTES];
  uint32_t again[WORDS], length, rows, position, steps, same = 0;
  if (refused("save", frame_history_save(words, WORDS, bytes, BYTES, &length))) return 1;
  if (refused("contents", frame_history_contents(bytes, length, &position, &steps))) return 1;
  listed(position, steps);
  if (refused("load", frame_history_load(again, WORDS, bytes, length, &rows))) return 1;
  for (int i = 0; i < WORDS; i++) same += words[i] == again[i];
  printf("saved: %u bytes; loaded: %u rows, %s\n", (unsigned)length, (unsigned)rows, same == WORDS ? "the same record" : "ANOTHER RECORD");
  return same != WORDS;
}

/* A history in the old form: the document 0, and a frame in it with documents 1 and 2, the latter shown. */
static const uint8_t old[] = {
  0, 0, 0, 2, 0, 0, 0, 3, 0, 0, 0, 2,                 /* two frames; the next document is 3 and the next frame 2 */
  0, 0, 0, 0, 255, 255, 255, 255, 0, 0, 0, 1, 0, 0, 0, 0, /* frame 0: no parent, one document, the first of them shown */
  0, 0, 0, 1, 0, 0, 0, 0, 0, 0, 0, 2, 0, 0, 0, 1,     /* frame 1: in document 0, two documents, the second of them shown */
  0, 0, 0, 0, 0, 0, 0, 1, 0, 0, 0, 2                  /* their numbers, with no places */
};

/* Lists it and loads it by the old form's own calls, and saves it in the new one. */
static int load_earlier(void) {
  uint32_t words[WORDS], position, steps, rows = 7, number = frame_history_load(words, WORDS, old, sizeof old, &rows);
  printf("an earlier history of %u bytes: load refuses it, number %u\n", (unsigned)sizeof old, (unsigned)number);
  if (number != FRAME_HISTORY_NOT_SAVED || rows != 7) return 1;
  if (refused("contents_old", frame_history_contents_old(old, sizeof old, &position, &steps))) return 1;
  listed(position, steps);
  if (refused("load_old", frame_history_load_old(words, WORDS, old, sizeof old, &rows))) return 1;
  printf("load_old takes it: %u rows\n", (unsigned)rows);
  stands(words, MAIN);
  return exchange(words);
}

/* The stock list, its next page and the price terms, back once, and another link; what of it is asked for later. */
typedef struct { uint32_t stock, quotation, terms, other; } pages;

static int read_and_scroll(uint32_t *words, uint32_t desk, pages *p) {
  uint32_t frame, more, hiding;
  if (refused("open", frame_history_open(words, WORDS, desk, &p->stock, &frame, &hiding))) return 1;
  printf("stock list: document %u in frame %u\n", (unsigned)p->stock, (unsigned)frame);
  if (refused("open", frame_history_open(words, WORDS, desk, &p->quotation, &frame, &hiding))) return 1;
  printf("quotation: document %u in frame %u\n", (unsigned)p->quotation, (unsigned)frame);
  stands(words, MAIN);

  if (scroll(words, p->quotation, 1312.5)) return 1;
  if (refused("navigate", frame_history_navigate(words, WORDS, p->stock, &more, &hiding))) return 1;
  printf("next page of the stock list: document %u\n", (unsigned)more);
  if (refused("navigate", frame_history_navigate(words, WORDS, p->quotation, &p->terms, &hiding))) return 1;
  printf("price terms: document %u\n", (unsigned)p->terms);
  stands(words, MAIN);

  if (scroll(words, p->terms, 64)) return 1;
  if (refused("place_itself", frame_history_place_itself(words, WORDS, places, PLACES, more))) return 1;
  kept();

  if (go(words, MAIN, "back", -1)) return 1;
  printf("the line is there again:\n");
  if (restore(words, p->quotation, 1.5) || restore(words, p->stock, 1.5)) return 1;

  if (refused("navigate", frame_history_navigate(words, WORDS, p->quotation, &p->other, &hiding))) return 1;
  printf("another link: document %u, not %u\n", (unsigned)p->other, (unsigned)p->terms);
  stands(words, MAIN);
  if (scroll(words, p->other, 20.25)) return 1;
  kept();
  return 0;
}

/* A price frame in the quotation, a click that comes too late, and the frame taken out. */
static int sell_for_cash(uint32_t *words, const pages *p) {
  uint32_t frame, prices, more, removed, hiding;
  if (refused("open", frame_history_open(words, WORDS, p->other, &prices, &frame, &hiding))) return 1;
  printf("prices: document %u in frame %u\n", (unsigned)prices, (unsigned)frame);
  if (refused("navigate", frame_history_navigate(words, WORDS, prices, &more, &hiding))) return 1;
  printf("next page of the prices: document %u\n", (unsigned)more);
  stands(words, MAIN);

  if (go(words, MAIN, "back twice", -2)) return 1;
  sight(words, p->quotation);
  sight(words, p->other);
  sight(words, prices);
  if (click(words, prices, p->other) || go(words, MAIN, "forward twice", 2)) return 1;

  if (refused("drop", frame_history_drop(words, WORDS, frame, &removed, &hiding))) return 1;
  printf("cash sale: frame %u goes, %u rows\n", (unsigned)frame, (unsigned)removed);
  stands(words, MAIN);
  return 0;
}

/* What is to be seen in a window, and where it stands. */
static int tell(const uint32_t *words, const char *name, uint32_t root) {
  uint32_t pairs[2 * ROWS], count, position, steps, length;
  if (refused("outline", frame_history_outline(words, WORDS, root, pairs, 2 * ROWS, &count))) return 1;
  if (refused("position", frame_history_position(words, WORDS, root, &position, &steps, &length))) return 1;
  printf("  %s: documents", name);
  for (uint32_t i = 0; i < count; i++) printf(" %u", (unsigned)pairs[2 * i + 1]);
  printf("; position %u of %u, length %u\n", (unsigned)position, (unsigned)steps, (unsigned)length);
  return 0;
}

/* The same of both. */
static int tell_both(const uint32_t *words, uint32_t card) {
  return tell(words, "main window", MAIN) || tell(words, "customer card", card);
}

/* Navigates, and leaves the new document in place of the one that it is asked from. */
static int follow(uint32_t *words, uint32_t *document) {
  uint32_t hiding;
  return refused("navigate", frame_history_navigate(words, WORDS, *document, document, &hiding));
}

/* The number of a frame that a document holds names no window. */
static int no_window(const uint32_t *words, uint32_t frame) {
  uint32_t position = 7, steps = 7, length = 7, number = frame_history_position(words, WORDS, frame, &position, &steps, &length);
  printf("frame %u is no window: refused, number %u\n", (unsigned)frame, (unsigned)number);
  return number != FRAME_HISTORY_NO_WINDOW || position != 7 || steps != 7 || length != 7;
}

/* A customer card beside the main window: links followed in both in turn, Back in one, another link in the other, and the table saved with both. */
static int pop_up(void) {
  uint32_t words[WORDS], customer, card, order, frame, hiding;
  if (refused("fresh", frame_history_fresh(words, WORDS))) return 1;
  if (refused("tab", frame_history_tab(words, WORDS, &customer, &card))) return 1;
  printf("a customer card beside the main window: document %u in root frame %u\n", (unsigned)customer, (unsigned)card);
  if (refused("open", frame_history_open(words, WORDS, 0, &order, &frame, &hiding))) return 1;
  printf("orders in the main window: document %u in frame %u\n", (unsigned)order, (unsigned)frame);
  for (int turn = 0; turn < 2; turn++) {
    if (follow(words, &order) || follow(words, &customer)) return 1;
    printf("the main window goes on to document %u, the card to document %u\n", (unsigned)order, (unsigned)customer);
  }
  if (tell_both(words, card)) return 1;

  if (go(words, MAIN, "back in the main window", -1) || tell(words, "customer card", card)) return 1;
  if (follow(words, &customer)) return 1;
  printf("the card goes on to document %u, and what is ahead in the main window stays\n", (unsigned)customer);
  return tell_both(words, card) || no_window(words, frame) || exchange(words);
}

int main(void) {
  uint32_t words[WORDS], desk, answer = 7, hiding = 7, links = 7, number;
  pages p;

  if (login(words, &desk) || read_and_scroll(words, desk, &p) || sell_for_cash(words, &p)) return 1;
  number = frame_history_visible(words, WORDS, p.terms, &answer, &hiding, &links);
  printf("document %u: refused, number %u; the out words still hold %u, %u and %u\n", (unsigned)p.terms, (unsigned)number, (unsigned)answer,
         (unsigned)hiding, (unsigned)links);
  if (number != FRAME_HISTORY_ABSENT || p.other == p.terms || answer != 7 || hiding != 7 || links != 7) return 1;
  return exchange(words) || load_earlier() || pop_up() ? 1 : 0;
}
