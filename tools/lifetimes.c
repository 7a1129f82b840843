/* Producers that break a rule of lifetimes, or end their process, each beside the lawful ones of producer.c: for the tests of
 * arrow_check. What they export has a lawful layout. A name begins with that of the rule, or with Ends.
 */
#include "producer.c"

#define ARRAYS(name) static void name(struct ArrowArray *array)
#define SCHEMAS(name) static void name(struct ArrowSchema *schema)
#define BROKEN(name, ...) SPOILT(name, export_float32_utf8, __VA_ARGS__)

static void *made(const void *bytes, size_t size) { return (void *)copy(bytes, size); }
/* Releases as the page has them, but that something isn't theirs to free, or something else is. */
ARRAYS(spares_data) { array->buffers[1] = NULL; release_malloced_array(array); }
ARRAYS(frees_private) { free(array->private_data); release_malloced_array(array); }
SCHEMAS(frees_private_type) { free(schema->private_data); release_malloced_type(schema); }

/* ---- A release marks its structure ---- */
ARRAYS(unmarked_array) { release_malloced_array(array); array->release = unmarked_array; }
SCHEMAS(unmarked_schema) { release_malloced_type(schema); schema->release = unmarked_schema; }
BROKEN(ReleaseMark_array, array->release = unmarked_array)
BROKEN(ReleaseMark_schema, schema->release = unmarked_schema)

/* ---- An export works after it is moved ---- */
ARRAYS(array_in_place) { if (array->private_data != array) abort(); release_malloced_array(array); }
SCHEMAS(schema_in_place) { if (schema->private_data != schema) abort(); release_malloced_type(schema); }
ARRAYS(marks_old_array) {
  struct ArrowArray *old = array->private_data;
  release_malloced_array(array);
  array->release = marks_old_array, old->release = NULL;
}
ARRAYS(own_buffers) { array->buffers = calloc(1, sizeof(void *)); release_malloced_array(array); }
BROKEN(Moved_array, array->private_data = array, array->release = array_in_place)
BROKEN(Moved_schema, schema->private_data = schema, schema->release = schema_in_place)
BROKEN(Moved_mark, array->private_data = array, array->release = marks_old_array)
BROKEN(Moved_buffers, free(array->buffers), array->buffers = (const void **)&array->private_data, array->release = own_buffers)
BROKEN(Moved_format, memcpy(&schema->private_data, "+s", 3), schema->format = (char *)&schema->private_data)

/* ---- Schema and array live apart ---- */
BROKEN(SchemaFirst_data, schema->private_data = (void *)a[0]->buffers[1], a[0]->release = spares_data,
       schema->release = frees_private_type)
BROKEN(SchemaFirst_offsets, schema->private_data = (void *)a[1]->buffers[1], a[1]->release = spares_data,
       schema->release = frees_private_type)
BROKEN(ArrayFirst_name, s[0]->name = array->private_data = made("floats", 7), array->release = frees_private)
BROKEN(ArrayFirst_format, s[1]->format = array->private_data = made("u", 2), array->release = frees_private)
BROKEN(ArrayFirst_metadata, s[1]->metadata = array->private_data = made("\0\0\0", 4), array->release = frees_private)

/* ---- Two exports ---- */
static float shared[3];
static void *once;
static struct ArrowSchema shared_type;
ARRAYS(clears_shared) { memset(shared, 0, sizeof shared); spares_data(array); }
static float slots[64][3];
static int used, marks;
ARRAYS(gives_the_last_back) { used--; spares_data(array); }
static void *newest, *older;
ARRAYS(clears_older) {
  if (array->buffers[1] == older) older = NULL;
  if (array->buffers[1] == newest) newest = older ? memset(older, 7, 12) : NULL, older = NULL;
  release_malloced_array(array);
}
static char column[] = "column 0";
ARRAYS(frees_once) { free(once), once = NULL; spares_data(array); }
SCHEMAS(marks_shared) {
  shared_type.release = NULL;
  schema->children[0] = calloc(1, sizeof *schema);
  release_malloced_type(schema);
}
BROKEN(TwoExports_written, DROP(a[0], 1), shared[1]++, a[0]->buffers[1] = shared, a[0]->release = spares_data)
BROKEN(TwoExports_cleared, DROP(a[0], 1), shared[1] = 7, a[0]->buffers[1] = shared, a[0]->release = clears_shared)
BROKEN(TwoExports_slots, DROP(a[0], 1), a[0]->buffers[1] = memset(slots[used++], ++marks, 12), a[0]->release = gives_the_last_back)
BROKEN(TwoExports_later, older = newest, newest = (void *)a[0]->buffers[1], a[0]->release = clears_older)
BROKEN(TwoExports_name, column[7] ^= 1, s[0]->name = column)
BROKEN(TwoExports_once, DROP(a[0], 1), once = once ? once : made("twelve bytes", 12), a[0]->buffers[1] = once,
       a[0]->release = frees_once)
BROKEN(TwoExports_type, shared_type = *s[0], free(s[0]->children), free(s[0]), shared_type.children = NULL, s[0] = &shared_type,
       schema->release = marks_shared)

/* ---- A child that is moved out ---- */
ARRAYS(calls_without_a_look) {
  for (int64_t i = 0; i < array->n_children; i++) array->children[i]->release(array->children[i]);
  release_malloced_array(array);
}
ARRAYS(calls_what_it_knows) {
  for (int64_t i = 0; i < array->n_children; i++) array->children[i]->release = release_malloced_array;
  release_malloced_array(array);
}
BROKEN(ChildMoved_data, array->private_data = (void *)a[0]->buffers[1], a[0]->release = spares_data, array->release = frees_private)
BROKEN(ChildMoved_second, array->private_data = (void *)a[1]->buffers[1], a[1]->release = spares_data,
       array->release = frees_private)
BROKEN(ChildMoved_null_call, array->release = calls_without_a_look)
BROKEN(ChildMoved_twice, array->release = calls_what_it_knows)
BROKEN(ChildMoved_place, a[1]->private_data = a[1], a[1]->release = array_in_place)

/* ---- Another thread ---- */
static __thread int is_here;
ARRAYS(here_array) { if (!is_here) abort(); release_malloced_array(array); }
SCHEMAS(here_schema) { if (!is_here) abort(); release_malloced_type(schema); }
ARRAYS(here_or_nothing) { if (is_here) release_malloced_array(array); }
ARRAYS(here_or_never) { while (!is_here) pause(); release_malloced_array(array); }
BROKEN(OtherThread_array, is_here = 1, array->release = here_array)
BROKEN(OtherThread_schema, is_here = 1, schema->release = here_schema)
BROKEN(OtherThread_unmarked, is_here = 1, array->release = here_or_nothing)
BROKEN(OtherThread_hang, is_here = 1, array->release = here_or_never)

/* ---- Leaks ---- */
ARRAYS(forgets_children) { array->n_children = 0; release_malloced_array(array); }
ARRAYS(forgets_dictionary) { array->dictionary = NULL; release_malloced_array(array); }
static void released_up_to(struct ArrowArray *array, int64_t begin, int64_t step) {
  struct ArrowArray **children = array->children;
  for (int64_t i = begin; i >= 0 && i < array->n_children && children[i]->release; i += step) children[i]->release(children[i]);
  for (int64_t i = 0; i < array->n_children; i++) free(children[i]);
  array->n_children = 0, release_malloced_array(array);
}
ARRAYS(stops_at_a_moved_child) { released_up_to(array, 0, 1); }
ARRAYS(stops_at_a_moved_child_from_behind) { released_up_to(array, array->n_children - 1, -1); }
BROKEN(Leak_behind_a_moved_child, array->release = stops_at_a_moved_child)
BROKEN(Leak_before_a_moved_child, array->release = stops_at_a_moved_child_from_behind)
BROKEN(Leak_file, if (open("/dev/null", O_RDONLY) < 0) abort())
BROKEN(Leak_mapping, last_bytes(5))
BROKEN(Leak_array, array->release = leaks_array)
BROKEN(Leak_schema, schema->release = leaks_type)
BROKEN(Leak_children, array->release = forgets_children)
BROKEN(Leak_buffer, a[0]->release = spares_data)
BROKEN(Leak_export, made("a byte", 1))
SPOILT(Leak_dictionary, export_many, a[1]->release = forgets_dictionary)

/* ---- Streams of three chunks, whose first number is the chunk's ---- */
struct own { int next, ended; void *block, *blocks[4]; struct ArrowArrayStream *place; char text[8]; };
static int own_schema(struct ArrowArrayStream *stream, struct ArrowSchema *out) {
  struct ArrowArray array;
  (void)stream;
  export_float32_utf8(out, &array);
  array.release(&array);
  return 0;
}
static int own_next(struct ArrowArrayStream *stream, struct ArrowArray *out) {
  struct own *own = stream->private_data;
  struct ArrowSchema schema;
  if (own->next >= 3) return out->release = NULL, 0;
  export_float32_utf8(&schema, out);
  schema.release(&schema);
  PUT(out->children[0], 1, float, 0, own->next++);
  return 0;
}
static const char *own_error(struct ArrowArrayStream *stream) { return (void)stream, "the disk is gone"; }
static void own_release(struct ArrowArrayStream *stream) {
  struct own *own = stream->private_data;
  free(own->block);
  for (int i = 0; i < 4; i++) free(own->blocks[i]);
  free(own);
  stream->release = NULL;
}
void lawful_stream(struct ArrowArrayStream *stream) {
  *stream = (struct ArrowArrayStream){own_schema, own_next, own_error, own_release, calloc(1, sizeof(struct own))};
  ((struct own *)stream->private_data)->place = stream;
}
/* What is done when a schema or an error's text is there, before the release, and when a chunk, or the end, is there. */
#define STREAMED(name, on_schema, on_error, on_release, ...)                                                             \
  static int name##_schema(struct ArrowArrayStream *stream, struct ArrowSchema *out) {                                   \
    struct own *own = stream->private_data;                                                                              \
    int code = own_schema(stream, out);                                                                                  \
    { (void)own; on_schema; }                                                                                            \
    return code;                                                                                                         \
  }                                                                                                                      \
  static int name##_next(struct ArrowArrayStream *stream, struct ArrowArray *out) {                                      \
    struct own *own = stream->private_data;                                                                              \
    struct ArrowArray before = *out;                                                                                     \
    int code = own_next(stream, out), is_end = out->release == NULL;                                                     \
    struct ArrowArray **a = is_end ? NULL : out->children;                                                               \
    { (void)own, (void)before, (void)a; __VA_ARGS__; }                                                                   \
    return code;                                                                                                         \
  }                                                                                                                      \
  static const char *name##_error(struct ArrowArrayStream *stream) {                                                     \
    const char *text = own_error(stream);                                                                                \
    on_error;                                                                                                            \
    return text;                                                                                                         \
  }                                                                                                                      \
  static void name##_release(struct ArrowArrayStream *stream) {                                                          \
    struct own *own = stream->private_data;                                                                              \
    { (void)own; on_release; }                                                                                           \
    own_release(stream);                                                                                                 \
  }                                                                                                                      \
  void name(struct ArrowArrayStream *stream) {                                                                           \
    lawful_stream(stream);                                                                                               \
    stream->get_schema = name##_schema, stream->get_next = name##_next;                                                  \
    stream->get_last_error = name##_error, stream->release = name##_release;                                             \
  }
#define ON_NEXT(name, ...) STREAMED(name, , , , if (!is_end) { __VA_ARGS__; })
#define AT_END(name, ...) STREAMED(name, , , , if (is_end) { __VA_ARGS__; })
#define GIVES_UP(...) out->release(out), memset(out, 0, sizeof *out), code = __VA_ARGS__

static void unmarked_stream(struct ArrowArrayStream *stream) { own_release(stream); stream->release = unmarked_stream; }
void ReleaseMark_stream(struct ArrowArrayStream *stream) { lawful_stream(stream), stream->release = unmarked_stream; }
ON_NEXT(ReleaseMark_chunk, out->release = unmarked_array)
ON_NEXT(Moved_stream, if (own->place != stream) abort())
ON_NEXT(Moved_stream_fails, if (own->place != stream) GIVES_UP(EINVAL))
ON_NEXT(Moved_chunk, out->private_data = out, out->release = array_in_place)
STREAMED(Moved_release, , , if (own->place != stream) abort(), )
STREAMED(SchemaFirst_chunk, out->private_data = own->place = made("twelve bytes", 12); out->release = frees_private_type, , ,
         if (!is_end) DROP(a[0], 1), a[0]->buffers[1] = own->place, a[0]->release = spares_data)
static int position, is_closed;
STREAMED(TwoExports_position, position = 0, , , own->next = is_end ? own->next : ++position)
STREAMED(TwoExports_closed, is_closed = 0, , is_closed = 1, if (!is_end && is_closed) GIVES_UP(0))
ON_NEXT(ChildMoved_chunk, out->private_data = (void *)a[0]->buffers[1], a[0]->release = spares_data, out->release = frees_private)
STREAMED(OtherThread_stream, is_here = 1, , if (!is_here) abort(), )
ON_NEXT(OtherThread_chunk, is_here = 1, out->release = here_array)
STREAMED(Leak_stream, , , made("a byte", 1), )
STREAMED(Leak_no_chunk, own->next = 3; made("a byte", 1), , , )
STREAMED(Leak_fault, , , , if (!is_end && own->next == 3) made("a byte", 1), GIVES_UP(EIO))
STREAMED(Leak_early, , , if (own->next < 3) made("a byte", 1), )
ON_NEXT(Leak_chunk, out->release = forgets_children)
AT_END(Leak_end, made("a byte", 1))
ON_NEXT(ChunkChanged_written, memcpy(shared, a[0]->buffers[1], 12), DROP(a[0], 1), a[0]->buffers[1] = shared,
        a[0]->release = spares_data)
ON_NEXT(ChunkChanged_freed, free(own->block), own->block = own->next > 1 ? NULL : (void *)a[0]->buffers[1];
        if (own->block) a[0]->release = spares_data)

static float two[2][3];
ON_NEXT(ChunkChanged_two, memcpy(two[own->next % 2], a[0]->buffers[1], 12), DROP(a[0], 1), a[0]->buffers[1] = two[own->next % 2],
        a[0]->release = spares_data)

/* Chunks of one stream, whose release acts on the oldest of them: `turns` goes with the last. */
struct turns { int references, first; void *data[4]; };
static void leave(struct turns *turns) { if (--turns->references == 0) free(turns); }
ARRAYS(only_the_oldest) {
  struct turns *turns = array->private_data;
  if (array->buffers[1] != turns->data[turns->first++]) abort();
  release_malloced_array(array), leave(turns);
}
ARRAYS(frees_the_oldest) {
  struct turns *turns = array->private_data;
  free(turns->data[turns->first++]);
  spares_data(array), leave(turns);
}
#define IN_TURNS(name, how)                                                                                              \
  STREAMED(name, own->block = calloc(1, sizeof(struct turns)); ((struct turns *)own->block)->references = 1, ,           \
           leave(own->block); own->block = NULL,                                                                         \
           if (!is_end) ((struct turns *)own->block)->data[own->next - 1] = (void *)a[0]->buffers[1],                    \
               ((struct turns *)own->block)->references++, a[0]->private_data = own->block, a[0]->release = how)
IN_TURNS(ChunkOrder_abort, only_the_oldest)
IN_TURNS(ChunkOrder_freed, frees_the_oldest)

ARRAYS(looks_at_stream) { if (((struct own *)array->private_data)->text[0] != 'x') abort(); release_malloced_array(array); }
ON_NEXT(StreamFirst_data, own->blocks[own->next] = (void *)a[0]->buffers[1], a[0]->release = spares_data)
ON_NEXT(StreamFirst_release, own->text[0] = 'x', out->private_data = own, out->release = looks_at_stream)
STREAMED(StreamFirst_schema, out->children[0]->name = strcpy(own->text, "floats"), , , )
STREAMED(StreamFirst_no_chunk, own->next = 3; out->children[0]->name = strcpy(own->text, "floats"), , , )
AT_END(EndMark_left, *out = before)
AT_END(EndAgain_error, code = own->ended++ ? EIO : 0)
AT_END(EndAgain_chunk, own->next = 0)
AT_END(EndAgain_abort, if (own->ended++) abort())

static const char *freed_text(void) {
  volatile uintptr_t place = (uintptr_t)made("it is gone", 11);
  free((void *)place);
  return (const char *)place;
}
#define FAILING(name, on_error) STREAMED(name, , on_error, , if (!is_end && own->next == 3) GIVES_UP(EIO))
FAILING(lawful_failure, )
FAILING(lawful_silence, text = NULL)
FAILING(LastError_latin, text = "caf\xe9")
FAILING(LastError_freed, text = freed_text())
FAILING(LastError_wild, text = (const char *)16)
static const char *open_text;
FAILING(LastError_open, text = open_text = open_text ? open_text : last_bytes(5))
FAILING(Leak_error, text = made(text, strlen(text) + 1))

/* ---- What ends the process, or changes it ---- */
ARRAYS(exits) { (void)array; exit(0); }
BROKEN(Ends_crash, abort())
BROKEN(Ends_crash_in_release, array->release = frees_twice)
BROKEN(Ends_exit, exit(0))
BROKEN(Ends_exit_in_release, array->release = exits)
BROKEN(Ends_hang, for (;;) pause())
BROKEN(Ends_folder, if (chdir("/")) abort())
BROKEN(Ends_forged, puts("array: ok"), fflush(stdout), abort())
BROKEN(Ends_child, if (fork() == 0) for (;;) pause())
ON_NEXT(Ends_crash_in_next, abort())
FAILING(Ends_crash_in_error, abort())
