/* The joint session history of a window, or of several in one table, kept in a run of 32-bit words that the host lends.

   Each call returns 0, or the number of the refusal (below). A refused call changes no word and no byte that was lent to it:
   the record, the answer runs and the out words all keep what they held. There is one exception, the only word that a refusal writes:
   the last out word of open, navigate, drop and replace, `hiding`. Refusal 5, and nothing else, writes it: the document that hides the one that
   has to be visible. On every other refusal, and where the call is accepted, it too keeps what it held.

   The document that hides one that is not visible is the nearest document, itself first and then upwards, that is not shown.

   A window is a root frame, one that no document holds, with everything beneath it; it is named by that frame's number. A fresh record has
   one window, frame 0, and frame_history_tab opens another, as a pop-up card beside the main window. Windows share the record: its room for
   rows and both next numbers, so that no document or frame of one has the number of another's. All else is each one's own: its steps, its
   position, its Back. A call on one window leaves the rows of every other as they are and in their order.
     traverse, traverse_rows, position, lists and outline name a window, by `root`. A number that no root frame has is refusal 13, that of a
       frame that a document holds among them;
     open, navigate, drop and replace find the window by themselves, from the document or the frame that they are given;
     tab, visible and the scroll places need none; save and the loading calls are about all windows of a record together.
   A window stays as long as its record, since no root frame can be taken out. For the test of a record (refusal 2) this means that any number
   of frames may have no parent, and that the order of steps, each upcoming one later than every shown document that is a step, is asked
   within each window by itself: the rows of two windows may stand between each other as they came.

   A lent run is a pointer and then a count of elements (not of bytes). The library keeps no pointer after a call returns and allocates nothing.
   Pointers are aligned for their type and not null, even where the count is 0. Runs and out words of one call must not overlap,
   except that two runs that are both only read may. Calls on different records may run at the same time, and so may calls that only
   read the same record (`const uint32_t *words`); no other call on a record may run beside one that writes it.

   How much to lend:
     a record has 7 words or more; its room for C rows is (words - 3) / 4 rounded down, so C is at least 1, and at most 512. Words
       past 3 + 4C are neither read nor written. A row is one document, so C is how many documents all windows together can hold at a time;
     change rows: four words, or one struct, a frame of the window are always enough;
     lists: C words in each run are always enough, and so are as many as the window has steps;
     outline: two words a row are always enough;
     saved bytes: 12 + 16F + 8n for F frames and n rows, so 12 + 24C are always enough, and 12300 for any record;
     a store of scroll places: as many entries as the record has room for rows are always enough. */
#ifndef FRAME_HISTORY_H
#define FRAME_HISTORY_H

#include <stddef.h>
#include <stdint.h>

#ifdef __cplusplus
extern "C" {
#endif

/* The ways to say no. Where several apply, the one that stands first here is given. */
enum {
  FRAME_HISTORY_SHORT_RECORD = 1, /* the record is under 7 words */
  FRAME_HISTORY_UNSOUND = 2,      /* the record is unsound */
  FRAME_HISTORY_NO_WINDOW = 13,   /* no root frame has that number */
  FRAME_HISTORY_BAD_PLACES = 15,  /* the entries of the store that are not free hold a document twice, a kind above 1, or a point
                                     that is NaN or infinite */
  FRAME_HISTORY_NOT_SAVED = 3,    /* the bytes are not bytes that frame_history_save writes, or for load_old, that it wrote before; for contents
                                     and contents_old, their contents and length are not such */
  FRAME_HISTORY_ABSENT = 4,       /* the document, or for drop the frame, is not in the record */
  FRAME_HISTORY_ROOT_FRAME = 10,  /* a root frame cannot be taken out */
  FRAME_HISTORY_HIDDEN = 5,       /* the document, or for drop the one that holds the frame, is there, but not visible */
  FRAME_HISTORY_BEYOND = 6,       /* the window's position + delta is below 0 or above its steps; or a list is too short for the stretch */
  FRAME_HISTORY_FULL = 7,         /* no row is left */
  FRAME_HISTORY_USED_UP = 8,      /* the next document number, or for open and tab the next frame number, is 4294967295 */
  FRAME_HISTORY_SHORT_BUFFER = 9, /* a lent answer run is too short */
  FRAME_HISTORY_NOT_FINITE = 11,  /* a coordinate, the zoom or a product is NaN or infinite */
  FRAME_HISTORY_NO_ENTRY = 12     /* the store has no entry of the document and none that is free, even after freeing */
};

/* How much stack a call needs: so many bytes beneath its caller's frame, on x86-64. It is no more where more rows are in use or more is
   lent; outline alone needs more where documents are nested deeper, and traverse, traverse_rows and lists need more where the record has
   several windows.
   What signal handlers take comes on top, and so does the lookup of memcpy and memset, which the library calls, in a program that looks them
   up at their first call.
   tests/stack measures every call and holds it to its number here; docs/BENCH.md has what it measured, and why. */
enum {
  FRAME_HISTORY_STACK = 592,         /* every call but save, load, load_old, outline, and traverse, traverse_rows and lists where there are several windows */
  FRAME_HISTORY_SAVE_STACK = 7168,   /* save, which puts the rows in the order of their frames there, where these are many */
  FRAME_HISTORY_LOAD_STACK = 9216,   /* load and load_old, which make the record there before they write the words that they were lent */
  FRAME_HISTORY_OUTLINE_STACK = 512, /* outline; it goes down the documents by calls, so besides */
  FRAME_HISTORY_OUTLINE_LEVEL = 128, /* so much for each level of visible documents: 1 for the root document alone, and 512 at most */
  FRAME_HISTORY_WINDOW_STACK = 9216  /* traverse, traverse_rows and lists on a record of several windows, where they copy the window's rows */
};

/* Writes the record of one new window: document 0 in its root frame, frame 0. What the words held does not matter.
   Lent to write: the record, of 7 words or more.
   Refused: 1. */
uint32_t frame_history_fresh(uint32_t *words, size_t n);

/* Opens a window beside those that the record has: a document, shown, in a root frame of its own. All rows stay as they are, the upcoming
   steps among them.
   Lent to write: the record. Out: the numbers of the new document and of its root frame, which names the window; both kept on refusal.
   Refused: 1, 2, 7, 8. */
uint32_t frame_history_tab(uint32_t *words, size_t n, uint32_t *document, uint32_t *frame);

/* Opens a frame under the visible document `parent`.
   Lent to write: the record. Out: the numbers of the new document and of its frame, both kept on refusal; and `hiding`: on refusal 5 the
   document that hides `parent`, kept otherwise.
   Refused: 1, 2, 4, 5, 7, 8. */
uint32_t frame_history_open(uint32_t *words, size_t n, uint32_t parent, uint32_t *document, uint32_t *frame,
                            uint32_t *hiding);

/* Navigates from the visible document `from`, in its frame: every upcoming step of its window goes, with everything beneath those,
   and a new document is shown in place of `from`, which stays as a step back. The upcoming steps of other windows stay and make no room.
   Lent to write: the record. Out: the number of the new document, kept on refusal; and `hiding`: on refusal 5 the document that hides
   `from`, kept otherwise.
   Refused: 1, 2, 4, 5, 7, 8. */
uint32_t frame_history_navigate(uint32_t *words, size_t n, uint32_t from, uint32_t *document, uint32_t *hiding);

/* Takes out the frame `frame`, with everything beneath it: its rows and those go, shown or not, and the gaps close in order. The other
   rows keep their flags, and the numbers of what went are not given again. The document that holds the frame must be visible.
   Lent to write: the record. Out: how many rows went, kept on refusal; and `hiding`: on refusal 5 the document that hides the one that
   holds the frame, kept otherwise.
   Refused: 1, 2, 4, 10, 5, in this order. */
uint32_t frame_history_drop(uint32_t *words, size_t n, uint32_t frame, uint32_t *removed, uint32_t *hiding);

/* Replaces the visible document `document` in its own row, with no step: as a login page, which should vanish from Back. Everything beneath it
   goes, shown or not, and the position falls by the steps taken there. Its row takes the next document number and stays where it is, shown,
   with its frame and its parent. Every other row stays, the upcoming steps among them; Back never comes to the old document again, and its
   number is not given again. No row more is needed, so a full record has room.
   Lent to write: the record. Out: the number of the new document, kept on refusal; and `hiding`: on refusal 5 the document that hides
   `document`, kept otherwise.
   Refused: 1, 2, 4, 5, 8. */
uint32_t frame_history_replace(uint32_t *words, size_t n, uint32_t document, uint32_t *replacement, uint32_t *hiding);

/* Goes `delta` steps forward in the window of the root frame `root`, or back where it is negative; 0 changes nothing. Nothing changes in
   other windows.
   Lent to write: the record, and `changes` for change rows of four words each, one for each frame whose shown document changes, by
   rising frame number: frame, document before, document after, and 1 if the latter is visible then, else 0.
   Words of `changes` past those rows are kept. Out: how many change rows; kept on refusal.
   Refused: 1, 2, 13, 6, 9, in this order. */
uint32_t frame_history_traverse(uint32_t *words, size_t n, uint32_t root, int32_t delta, uint32_t *changes,
                                size_t changes_n, uint32_t *count);

/* A change row: a frame, its document before and after, and 1 if the latter is visible then, else 0. */
typedef struct {
  uint32_t frame;
  uint32_t before;
  uint32_t after;
  uint32_t load;
} frame_history_change_row;

/* The same with change rows lent as structs; `rows_n` counts rows. Rows past those written are kept.
   Refused: 1, 2, 13, 6, 9, in this order. */
uint32_t frame_history_traverse_rows(uint32_t *words, size_t n, uint32_t root, int32_t delta,
                                     frame_history_change_row *rows, size_t rows_n, uint32_t *count);

/* Where the window of the root frame `root` stands.
   Lent to read: the record. Out: its position, its steps, and its length for scripts, which counts the current entry too: one more than
   the steps, and 1 for a new window; all kept on refusal.
   Refused: 1, 2, 13, in this order. */
uint32_t frame_history_position(const uint32_t *words, size_t n, uint32_t root, uint32_t *position, uint32_t *steps,
                                uint32_t *length);

/* Whether a document is visible, and if it is not, which document hides it.
   Lent to read: the record. Out: 1 or 0; `hiding`: the document that hides it, or 4294967295 where the answer is 1; and `links`: how many
   parent links were followed to tell. From the document upwards that is none where it is not shown itself, and none above the one that
   hides it; where the answer is 1 it is the document's depth in the outline. It is never more than the place of the document's row,
   counted from 0. All kept on refusal.
   Refused: 1, 2, 4. */
uint32_t frame_history_visible(const uint32_t *words, size_t n, uint32_t document, uint32_t *answer, uint32_t *hiding,
                               uint32_t *links);

/* The documents of the taken steps, latest first, and of the upcoming steps, earliest first, in the window of the root frame `root`.
   Lent to read: the record. Lent to write: a run for each list; words past a list are kept.
   Out: how many entries each list has; both kept on refusal.
   Refused: 1, 2, 13, 9, in this order. */
uint32_t frame_history_lists(const uint32_t *words, size_t n, uint32_t root, uint32_t *taken, size_t taken_n,
                             uint32_t *upcoming, size_t upcoming_n, uint32_t *taken_count, uint32_t *upcoming_count);

/* How many entries a move by `delta` takes of the host's own two lists: of `taken` where delta is negative, else of `upcoming`. They
   are the first entries of that list.
   Lent to read: both lists. Out: how many entries; kept on refusal.
   Refused: 6, where the list is shorter than that. */
uint32_t frame_history_stretch(const uint32_t *taken, size_t taken_n, const uint32_t *upcoming, size_t upcoming_n,
                               int32_t delta, uint32_t *count);

/* The visible documents of the window of the root frame `root` as pairs of two words, depth and document: the root document at depth 0, and
   beneath each document its frames by rising frame number.
   Lent to read: the record. Lent to write: `pairs`, of two words a pair; words past the pairs are kept.
   Out: how many pairs; kept on refusal.
   Refused: 1, 2, 13, 9, in this order. */
uint32_t frame_history_outline(const uint32_t *words, size_t n, uint32_t root, uint32_t *pairs, size_t pairs_n,
                               uint32_t *count);

/* Writes the saved form of the record with all its windows, which desks may exchange: numbers of four bytes each, the highest byte first. The
   contents come first: how many frames there are, the next document number and the next frame number; then for each frame, by rising frame
   number, the frame, its parent document (4294967295 for a root frame), how many documents it has, and which of them is shown, counted from 0. Then the
   bodies, frame by frame in the same order: for each of its documents, in the order of their rows, the document's number and the place of its
   row in the record, counted from 0. These are 12 + 16F + 8n bytes for F frames and n rows, 36 for a fresh record.
   Lent to read: the record. Lent to write: `bytes`; bytes past the saved form are kept.
   Out: its length in bytes; kept on refusal.
   Refused: 1, 2, 9. */
uint32_t frame_history_save(const uint32_t *words, size_t n, uint8_t *bytes, size_t bytes_n, uint32_t *length);

/* Fills a record from bytes that frame_history_save wrote, and from no others. What the words held does not matter. `bytes_n` is the saved length.
   Lent to write: the record. Lent to read: the bytes. Out: how many rows the record has; kept on refusal.
   Refused: 1, 3, 7. */
uint32_t frame_history_load(uint32_t *words, size_t n, const uint8_t *bytes, size_t bytes_n, uint32_t *rows);

/* The same from bytes of the old form, which frame_history_save wrote before documents could be replaced, and from no others. It has the same
   contents, and in the bodies the document numbers alone, rising as the rows' numbers all did: 12 + 16F + 4n bytes. There was
   one window then, so bytes of the old form with two root frames are refused by 3. A desk loads an old history by this call and saves it in
   the new form. No bytes are of both forms, so what frame_history_load refuses by 3 may be tried here.
   Lent to write: the record. Lent to read: the bytes. Out: how many rows the record has; kept on refusal.
   Refused: 1, 3, 7. */
uint32_t frame_history_load_old(uint32_t *words, size_t n, const uint8_t *bytes, size_t bytes_n, uint32_t *rows);

/* Tells from the contents of saved bytes alone, without reading the bodies, how far the saved window could go: Back works where `position` is above 0, Forward where it is below
   `steps`. Of several windows in one table both are the sums over all. On bytes that frame_history_load accepts they are the position and the steps of the record that it
   fills; other bytes with such contents are answered too, so an answer does not say that the bytes can be loaded. No byte after the contents counts but for
   `bytes_n`, which is the saved length.
   Lent to read: the bytes. Out: position and steps; both kept on refusal.
   Refused: 3 (there is no frame, the bytes do not hold the contents, a frame's shown place is not below the count of its documents, there are more than 512 documents, or the
   length is not 12 + 16F + 8n). */
uint32_t frame_history_contents(const uint8_t *bytes, size_t bytes_n, uint32_t *position, uint32_t *steps);

/* The same of bytes of the old form, whose length is 12 + 16F + 4n, and of what frame_history_load_old accepts.
   Lent to read: the bytes. Out: position and steps; both kept on refusal.
   Refused: 3. */
uint32_t frame_history_contents_old(const uint8_t *bytes, size_t bytes_n, uint32_t *position, uint32_t *steps);

/* SCROLL PLACES. For each document the host may keep either that the page places itself, or a point in CSS pixels. Places live in a store
   that the host lends beside the record; the record is only read by these calls, and no other call has the store.

   A store is a run of 64-bit words, four an entry: `places` points to the first word and `places_n` counts words, so four times the entries.
   The same memory is an array of the struct below, with no conversion; lent so, `places` is the array cast to `uint64_t *`. Words past
   the last whole entry are neither read nor written. To begin with, set every document to FRAME_HISTORY_FREE; the rest may be anything.

   The library moves a double as it is, and multiplies it rounding to nearest, ties to even, subnormal numbers among them. A host that sets
   another rounding mode, or flushes subnormal numbers to zero (as -ffast-math may), is outside that promise.

   An entry belongs to a document's number: what replaces a document has none at first. `frame_history_load` and `frame_history_load_old` put another
   record under the same store, and its documents would find the places of equal numbers: lend a fresh store with it. */
#define FRAME_HISTORY_FREE 4294967295u

/* An entry: the document, or FRAME_HISTORY_FREE; 0 where the page places itself, 1 for the point; the point, used only for kind 1. */
typedef struct {
  uint64_t document;
  uint64_t kind;
  double x;
  double y;
} frame_history_place_entry;

/* A point in CSS pixels. */
typedef struct {
  double x;
  double y;
} frame_history_point;

/* Sets that the page of `document` places itself. First the entries of documents that are not in the record are freed, by their number
   alone, which changes their document and nothing else; then the document's own entry is written, or without one the first that is
   free. Its doubles and all other entries are kept.
   Lent to read: the record. Lent to write: the store; a refused call frees nothing.
   Refused: 1, 2, 15, 4, 12, in this order. */
uint32_t frame_history_place_itself(const uint32_t *words, size_t n, uint64_t *places, size_t places_n, uint32_t document);

/* Sets the place of `document` at `point`, likewise.
   Lent to read: the record. Lent to write: the store; a refused call frees nothing.
   Refused: 1, 2, 15, 4, 11, 12, in this order. */
uint32_t frame_history_place_at(const uint32_t *words, size_t n, uint64_t *places, size_t places_n, uint32_t document,
                                frame_history_point point);

/* The place of `document`, bit for bit as it was set. A document without an entry places itself.
   Lent to read: the record and the store. Out: 0 where the page places itself, and `x` and `y` are kept; 1 and the point; all kept on
   refusal.
   Refused: 1, 2, 15, 4, in this order. */
uint32_t frame_history_place(const uint32_t *words, size_t n, const uint64_t *places, size_t places_n, uint32_t document,
                             uint32_t *kind, double *x, double *y);

/* The same at a page zoom: each coordinate times `zoom`, rounded once. The zoom is tested also where the page places itself.
   Refused: 1, 2, 15, 4, 11, in this order. */
uint32_t frame_history_place_at_zoom(const uint32_t *words, size_t n, const uint64_t *places, size_t places_n, uint32_t document,
                                     double zoom, uint32_t *kind, double *x, double *y);

#ifdef __cplusplus
}
#endif

#endif
