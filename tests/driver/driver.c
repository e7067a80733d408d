/* Runs calls of the library's archive that are asked for on standard input, and answers on standard output.
   No headers: the kit's own compiler builds it.

   A request is HEAD words, then the lent runs: words, first, second, places, bytes (padded with zeros to whole words).
     0 call   1 number   2 how the runs lie   3 guard word   4 5 6 the out words' earlier values
     7 8 9 10 11 counts of words, first, second, places (of 64 bits each) and bytes
     12 to 15 the doubles given: a point, or a zoom and nothing   16 to 19 the out doubles' earlier values   20 the root frame of a window
   A double goes by its bits, in two words, the lower first; so does a word of 64 bits.
   An answer is the refusal (or 0), the three out words, the guards (0 when every one is intact), the two out doubles, then the
   same runs as they are after the call, those that are lent for reading alone among them.

   How the runs lie: 0, guard words on both sides; 1, guard words before, and no page after the run's end;
   2, no page before the run's start, and guard words after. A touch of a missing page ends the program. */
typedef unsigned char u8;
typedef unsigned int u32;
typedef int i32;
typedef unsigned long usize;
typedef unsigned long u64;

long read(int, void *, usize);
long write(int, const void *, usize);
void *mmap(void *, usize, int, int, int, long);
int mprotect(void *, usize, int);

typedef struct { u32 frame, before, after, load; } row;
typedef struct { double x, y; } point;

u32 frame_history_fresh(u32 *words, usize n);
u32 frame_history_open(u32 *words, usize n, u32 parent, u32 *document, u32 *frame, u32 *hiding);
u32 frame_history_navigate(u32 *words, usize n, u32 from, u32 *document, u32 *hiding);
u32 frame_history_traverse(u32 *words, usize n, u32 root, i32 delta, u32 *changes, usize changes_n, u32 *count);
u32 frame_history_traverse_rows(u32 *words, usize n, u32 root, i32 delta, row *rows, usize rows_n, u32 *count);
u32 frame_history_drop(u32 *words, usize n, u32 frame, u32 *removed, u32 *hiding);
u32 frame_history_replace(u32 *words, usize n, u32 document, u32 *replacement, u32 *hiding);
u32 frame_history_tab(u32 *words, usize n, u32 *document, u32 *frame);
u32 frame_history_position(const u32 *words, usize n, u32 root, u32 *position, u32 *steps, u32 *length);
u32 frame_history_visible(const u32 *words, usize n, u32 document, u32 *answer, u32 *hiding, u32 *links);
u32 frame_history_lists(const u32 *words, usize n, u32 root, u32 *taken, usize taken_n, u32 *upcoming, usize upcoming_n, u32 *taken_count, u32 *upcoming_count);
u32 frame_history_stretch(const u32 *taken, usize taken_n, const u32 *upcoming, usize upcoming_n, i32 delta, u32 *count);
u32 frame_history_outline(const u32 *words, usize n, u32 root, u32 *pairs, usize pairs_n, u32 *count);
u32 frame_history_save(const u32 *words, usize n, u8 *bytes, usize bytes_n, u32 *length);
u32 frame_history_load(u32 *words, usize n, const u8 *bytes, usize bytes_n, u32 *rows);
u32 frame_history_load_old(u32 *words, usize n, const u8 *bytes, usize bytes_n, u32 *rows);
u32 frame_history_contents(const u8 *bytes, usize bytes_n, u32 *position, u32 *steps);
u32 frame_history_contents_old(const u8 *bytes, usize bytes_n, u32 *position, u32 *steps);
u32 frame_history_place_itself(const u32 *words, usize n, u64 *places, usize places_n, u32 document);
u32 frame_history_place_at(const u32 *words, usize n, u64 *places, usize places_n, u32 document, point at);
u32 frame_history_place(const u32 *words, usize n, const u64 *places, usize places_n, u32 document, u32 *kind, double *x, double *y);
u32 frame_history_place_at_zoom(const u32 *words, usize n, const u64 *places, usize places_n, u32 document, double zoom, u32 *kind, double *x, double *y);

enum {
  FRESH, OPEN, NAVIGATE, TRAVERSE, DROP, REPLACE, TAB, POSITION, VISIBLE, LISTS, STRETCH, OUTLINE, SAVE, LOAD, LOAD_OLD, CONTENTS, CONTENTS_OLD,
  PLACE_ITSELF, PLACE_AT, PLACE, PLACE_AT_ZOOM, NO_CALL = 99
};
enum { WORDS, FIRST, SECOND, PLACES, BYTES, RUNS };
enum { HEAD = 21, PAGE = 65536, AREA = 2 * PAGE, GUARD = 64 };

/* Standard input and output, each through a buffer. What is written goes out before the program waits for more. */
static u8 in[1 << 20], out[1 << 20];
static usize in_at, in_end, out_end;

static int flush(void) {
  usize done = 0;
  while (done < out_end) {
    long n = write(1, out + done, out_end - done);
    if (n <= 0) return 0;
    done += (usize)n;
  }
  out_end = 0;
  return 1;
}

static int take(void *to, usize count) {
  u8 *p = to;
  while (count > 0) {
    if (in_at == in_end) {
      if (!flush()) return 0;
      long n = read(0, in, sizeof in);
      if (n <= 0) return 0;
      in_at = 0;
      in_end = (usize)n;
    }
    usize part = in_end - in_at < count ? in_end - in_at : count;
    for (usize i = 0; i < part; i++) p[i] = in[in_at + i];
    in_at += part;
    p += part;
    count -= part;
  }
  return 1;
}

static int give(const void *from, usize count) {
  const u8 *p = from;
  while (count > 0) {
    if (out_end == sizeof out && !flush()) return 0;
    usize part = sizeof out - out_end < count ? sizeof out - out_end : count;
    for (usize i = 0; i < part; i++) out[out_end + i] = p[i];
    out_end += part;
    p += part;
    count -= part;
  }
  return 1;
}

/* One area a run, with a page before and a page after it that cannot be touched. */
static u8 *areas[RUNS];

static int make_areas(void) {
  for (int r = 0; r < RUNS; r++) {
    u8 *whole = mmap(0, AREA + 2 * PAGE, 0, 0x22, -1, 0); /* private, anonymous, closed */
    if (whole == (u8 *)-1 || mprotect(whole + PAGE, AREA, 3) != 0) return 0;
    areas[r] = whole + PAGE;
  }
  return 1;
}

/* Where a run of `size` bytes starts. A run of bytes may start off the word boundary, by the guard word; places are of eight bytes each. */
static u8 *run_start(int r, u32 lie, usize size, u32 guard) {
  if (lie == 1) return areas[r] + AREA - size;
  if (lie == 2) return areas[r];
  return areas[r] + GUARD + (r == PLACES ? 8 : 4) + (r == BYTES ? guard & 3 : 0);
}

static u8 guard_byte(u32 guard, const u8 *p) { return (u8)(guard >> (8 * ((usize)p & 3))); }

/* The guard bytes on both sides of a run, as far as the area reaches. */
static usize before(int r, const u8 *start) { return start - areas[r] < GUARD ? (usize)(start - areas[r]) : GUARD; }
static usize after(int r, const u8 *end) { return areas[r] + AREA - end < GUARD ? (usize)(areas[r] + AREA - end) : GUARD; }

static void set_guards(int r, u8 *start, usize size, u32 guard) {
  for (u8 *p = start - before(r, start); p < start; p++) *p = guard_byte(guard, p);
  for (u8 *p = start + size; p < start + size + after(r, start + size); p++) *p = guard_byte(guard, p);
}

static int intact(int r, const u8 *start, usize size, u32 guard) {
  for (const u8 *p = start - before(r, start); p < start; p++) if (*p != guard_byte(guard, p)) return 0;
  for (const u8 *p = start + size; p < start + size + after(r, start + size); p++) if (*p != guard_byte(guard, p)) return 0;
  return 1;
}

/* The out words stand apart, each between two guard words. */
static u32 outs[7];

/* So do the out doubles, and each double can be had by its bits. */
typedef union { u32 halves[2]; double value; } bits;
static bits doubles[5];

static bits bits_of(const u32 *halves) { return (bits){{halves[0], halves[1]}}; }

static u32 call(const u32 *head, u8 **run) {
  u32 *words = (u32 *)run[WORDS], *first = (u32 *)run[FIRST], *second = (u32 *)run[SECOND];
  u64 *places = (u64 *)run[PLACES];
  u8 *bytes = run[BYTES];
  usize n = head[7], first_n = head[8], second_n = head[9], places_n = head[10], bytes_n = head[11];
  u32 *a = outs + 1, *b = outs + 3, *c = outs + 5, number = head[1], root = head[20];
  bits given[2] = {bits_of(head + 12), bits_of(head + 14)};
  double *x = &doubles[1].value, *y = &doubles[3].value;
  switch (head[0]) {
  case FRESH: return frame_history_fresh(words, n);
  case OPEN: return frame_history_open(words, n, number, a, b, c);
  case NAVIGATE: return frame_history_navigate(words, n, number, a, b);
  case TRAVERSE:
    /* Every other guard word asks for the change rows as structs: the same outcome, of as many rows as the words hold. */
    if (head[3] & 1) return frame_history_traverse_rows(words, n, root, (i32)number, (row *)first, first_n / 4, a);
    return frame_history_traverse(words, n, root, (i32)number, first, first_n, a);
  case DROP: return frame_history_drop(words, n, number, a, b);
  case REPLACE: return frame_history_replace(words, n, number, a, b);
  case TAB: return frame_history_tab(words, n, a, b);
  case POSITION: return frame_history_position(words, n, root, a, b, c);
  case VISIBLE: return frame_history_visible(words, n, number, a, b, c);
  case LISTS: return frame_history_lists(words, n, root, first, first_n, second, second_n, a, b);
  case STRETCH: return frame_history_stretch(first, first_n, second, second_n, (i32)number, a);
  case OUTLINE: return frame_history_outline(words, n, root, first, first_n, a);
  case SAVE: return frame_history_save(words, n, bytes, bytes_n, a);
  case LOAD: return frame_history_load(words, n, bytes, bytes_n, a);
  case LOAD_OLD: return frame_history_load_old(words, n, bytes, bytes_n, a);
  case CONTENTS: return frame_history_contents(bytes, bytes_n, a, b);
  case CONTENTS_OLD: return frame_history_contents_old(bytes, bytes_n, a, b);
  case PLACE_ITSELF: return frame_history_place_itself(words, n, places, places_n, number);
  case PLACE_AT: return frame_history_place_at(words, n, places, places_n, number, (point){given[0].value, given[1].value});
  case PLACE: return frame_history_place(words, n, places, places_n, number, a, x, y);
  case PLACE_AT_ZOOM: return frame_history_place_at_zoom(words, n, places, places_n, number, given[0].value, a, x, y);
  }
  return NO_CALL;
}

int main(void) {
  u32 head[HEAD];
  if (!make_areas()) return 3;
  while (take(head, sizeof head)) {
    u32 guard = head[3], reply[9], padding = 0, guards[2] = {guard, guard};
    usize size[RUNS] = {4ul * head[7], 4ul * head[8], 4ul * head[9], 8ul * head[10], head[11]};
    u8 *run[RUNS];
    for (int r = 0; r < RUNS; r++) {
      if (size[r] + 2 * GUARD + 8 > AREA) return 4;
      run[r] = run_start(r, head[2], size[r], guard);
      set_guards(r, run[r], size[r], guard);
      if (!take(run[r], size[r])) return 5;
    }
    if (!take(&padding, -size[BYTES] & 3)) return 5;
    for (int i = 0; i < 7; i++) outs[i] = i % 2 ? head[4 + i / 2] : guard;
    for (int i = 0; i < 5; i++) doubles[i] = bits_of(i % 2 ? head + 15 + i : guards);
    reply[0] = call(head, run);
    reply[4] = 0;
    for (int i = 0; i < 3; i++) reply[1 + i] = outs[2 * i + 1];
    for (int i = 0; i < 4; i++) reply[5 + i] = doubles[i / 2 * 2 + 1].halves[i % 2];
    for (int r = 0; r < RUNS; r++) if (!intact(r, run[r], size[r], guard)) reply[4] |= 1u << r;
    for (int i = 0; i < 7; i += 2) if (outs[i] != guard) reply[4] |= 1u << RUNS;
    for (int i = 0; i < 10; i++) if (i / 2 % 2 == 0 && doubles[i / 2].halves[i % 2] != guard) reply[4] |= 2u << RUNS;
    if (!give(reply, sizeof reply)) return 6;
    for (int r = 0; r < RUNS; r++) if (!give(run[r], size[r])) return 6;
    padding = 0;
    if (!give(&padding, -size[BYTES] & 3)) return 6;
  }
  return flush() ? 0 : 6;
}
