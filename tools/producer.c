/* Producers of the Arrow C Data Interface, for the tests of arrow_check.
 *
 * export_int32 and export_float32_utf8 follow the two examples of the page "The Arrow C data interface" ("Exporting a
 * simple int32 array", "Exporting a struct<float32, utf8> array"). Each function behind them exports what its name says.
 *
 *     cc -std=c11 -Wall -Wextra -O1 -g -shared -fPIC producer.c -o libproducer.so
 */
#define _GNU_SOURCE
#include <assert.h>
#include <errno.h>
#include <fcntl.h>
#include <signal.h>
#include <stdint.h>
#include <stdio.h>
#include <stdlib.h>
#include <string.h>
#include <sys/mman.h>
#include <unistd.h>

#define ARROW_FLAG_NULLABLE 2

struct ArrowSchema {
  const char *format, *name, *metadata;
  int64_t flags, n_children;
  struct ArrowSchema **children, *dictionary;
  void (*release)(struct ArrowSchema *);
  void *private_data;
};
struct ArrowArray {
  int64_t length, null_count, offset, n_buffers, n_children;
  const void **buffers;
  struct ArrowArray **children, *dictionary;
  void (*release)(struct ArrowArray *);
  void *private_data;
};
struct ArrowArrayStream {
  int (*get_schema)(struct ArrowArrayStream *, struct ArrowSchema *);
  int (*get_next)(struct ArrowArrayStream *, struct ArrowArray *);
  const char *(*get_last_error)(struct ArrowArrayStream *);
  void (*release)(struct ArrowArrayStream *);
  void *private_data;
};

/* How often a release acted: a test asks that each structure's did, once. Where the environment variable RELEASED names a file,
 * the counts are in it, for all processes. */
static int here[3], *released = here;
#define released_schemas released[0]
#define released_arrays released[1]
#define released_streams released[2]
__attribute__((constructor)) static void open_released(void) {
  int file = getenv("RELEASED") ? open(getenv("RELEASED"), O_RDWR) : -1;
  if (file < 0) return;
  released = mmap(NULL, sizeof here, PROT_READ | PROT_WRITE, MAP_SHARED, file, 0);
  assert(released != MAP_FAILED && close(file) == 0);
}

/* ---- The page's first example: int32 ---- */

static void release_int32_type(struct ArrowSchema *schema) {
  released_schemas++;
  schema->release = NULL;
}

void export_int32_type(struct ArrowSchema *schema) {
  *schema = (struct ArrowSchema){.format = "i", .name = "", .release = &release_int32_type};
}

static void release_int32_array(struct ArrowArray *array) {
  assert(array->n_buffers == 2);
  released_arrays++;
  free((void *)array->buffers[1]);
  free(array->buffers);
  array->release = NULL;
}

void export_int32_array(const int32_t *data, int64_t nitems, struct ArrowArray *array) {
  *array = (struct ArrowArray){.length = nitems, .offset = 0, .null_count = 0, .n_buffers = 2,
                               .release = &release_int32_array};
  array->buffers = malloc(sizeof(void *) * array->n_buffers);
  assert(array->buffers != NULL);
  array->buffers[0] = NULL; /* no nulls, null bitmap can be omitted */
  array->buffers[1] = data;
}

void export_int32(struct ArrowSchema *schema, struct ArrowArray *array) {
  int32_t *data = malloc(5 * sizeof *data);
  for (int i = 0; i < 5; i++) data[i] = i * i - 3;
  export_int32_type(schema);
  export_int32_array(data, 5, array);
}

/* ---- The page's second example: struct<float32, utf8>, and its releases, used by all below ---- */

static void release_malloced_type(struct ArrowSchema *schema) {
  released_schemas++;
  for (int i = 0; i < schema->n_children; ++i) {
    struct ArrowSchema *child = schema->children[i];
    if (child->release != NULL) child->release(child);
    free(child);
  }
  free(schema->children);
  if (schema->dictionary != NULL) {
    if (schema->dictionary->release != NULL) schema->dictionary->release(schema->dictionary);
    free(schema->dictionary);
  }
  schema->release = NULL;
}

static void release_malloced_array(struct ArrowArray *array) {
  released_arrays++;
  for (int i = 0; i < array->n_children; ++i) {
    struct ArrowArray *child = array->children[i];
    if (child->release != NULL) child->release(child);
    free(child);
  }
  free(array->children);
  if (array->dictionary != NULL) {
    if (array->dictionary->release != NULL) array->dictionary->release(array->dictionary);
    free(array->dictionary);
  }
  for (int i = 0; i < array->n_buffers; ++i) free((void *)array->buffers[i]);
  free(array->buffers);
  array->release = NULL;
}

static void type_of(struct ArrowSchema *schema, const char *format, const char *name, int64_t n_children) {
  *schema = (struct ArrowSchema){.format = format, .name = name, .flags = ARROW_FLAG_NULLABLE,
                                 .n_children = n_children, .release = &release_malloced_type};
  schema->children = n_children ? malloc(sizeof(void *) * n_children) : NULL;
  for (int64_t i = 0; i < n_children; i++) schema->children[i] = malloc(sizeof(struct ArrowSchema));
}

static void array_of(struct ArrowArray *array, int64_t length, int64_t null_count, int64_t n_buffers,
                     int64_t n_children) {
  *array = (struct ArrowArray){.length = length, .null_count = null_count, .n_buffers = n_buffers,
                               .n_children = n_children, .release = &release_malloced_array};
  array->buffers = calloc(n_buffers + 1, sizeof(void *));
  array->children = n_children ? malloc(sizeof(void *) * n_children) : NULL;
  for (int64_t i = 0; i < n_children; i++) array->children[i] = malloc(sizeof(struct ArrowArray));
}

static const void *copy(const void *bytes, size_t size) { return memcpy(malloc(size), bytes, size); }
#define BUFFER(type, ...) copy((type[]){__VA_ARGS__}, sizeof((type[]){__VA_ARGS__}))
#define TEXT(text) copy(text, sizeof(text) - 1)

void export_float32_utf8(struct ArrowSchema *schema, struct ArrowArray *array) {
  type_of(schema, "+s", "", 2);
  schema->flags = 0;
  type_of(schema->children[0], "f", "floats", 0);
  type_of(schema->children[1], "u", "strings", 0);
  array_of(array, 3, 0, 1, 2);
  array_of(array->children[0], 3, -1, 2, 0);
  array->children[0]->buffers[0] = BUFFER(uint8_t, 0x05);
  array->children[0]->buffers[1] = BUFFER(float, 1.5f, 0.0f, -2.25f);
  array_of(array->children[1], 3, -1, 3, 0);
  array->children[1]->buffers[1] = BUFFER(int32_t, 0, 3, 3, 9);
  array->children[1]->buffers[2] = TEXT("abch\xc3\xa9llo");
}

/* ---- Lawful data of further layouts ---- */

/* map<utf8, list<int64>> of two items, a dictionary, a view, a fixed list, decimals, metadata and a slice. */
void export_many(struct ArrowSchema *schema, struct ArrowArray *array) {
  static const char metadata[] = "\2\0\0\0\4\0\0\0key1\6\0\0\0value1\0\0\0\0\0\0\0";
  type_of(schema, "+s", "many", 7);
  schema->metadata = metadata;
  struct ArrowSchema **s = schema->children;
  type_of(s[0], "+m", "map", 1);
  s[0]->flags |= 4;
  type_of(s[0]->children[0], "+s", "entries", 2);
  type_of(s[0]->children[0]->children[0], "u", "key", 0);
  type_of(s[0]->children[0]->children[1], "+l", "value", 1);
  type_of(s[0]->children[0]->children[1]->children[0], "l", "item", 0);
  type_of(s[1], "c", "dict", 0);
  s[1]->dictionary = malloc(sizeof(struct ArrowSchema));
  type_of(s[1]->dictionary, "u", NULL, 0);
  type_of(s[2], "vu", "view", 0);
  type_of(s[3], "+w:2", "pairs of\nfloats", 1);
  type_of(s[3]->children[0], "g", "item", 0);
  type_of(s[4], "d:19,4", "decimal", 0);
  type_of(s[5], "tsu:Europe/Paris", "when", 0);
  type_of(s[6], "n", "nothing", 0);

  array_of(array, 2, 0, 1, 7);
  struct ArrowArray **a = array->children;
  array_of(a[0], 2, 0, 2, 1);
  a[0]->buffers[1] = BUFFER(int32_t, 0, 1, 3);
  array_of(a[0]->children[0], 3, 0, 1, 2);
  array_of(a[0]->children[0]->children[0], 3, 0, 3, 0);
  a[0]->children[0]->children[0]->buffers[1] = BUFFER(int32_t, 0, 1, 2, 3);
  a[0]->children[0]->children[0]->buffers[2] = TEXT("xyz");
  array_of(a[0]->children[0]->children[1], 3, 1, 2, 1);
  a[0]->children[0]->children[1]->buffers[0] = BUFFER(uint8_t, 0x05);
  a[0]->children[0]->children[1]->buffers[1] = BUFFER(int32_t, 0, 2, 2, 3);
  array_of(a[0]->children[0]->children[1]->children[0], 3, 0, 2, 0);
  a[0]->children[0]->children[1]->children[0]->buffers[1] = BUFFER(int64_t, 1, -2, 3);
  array_of(a[1], 2, 1, 2, 0);
  a[1]->offset = 1;
  a[1]->buffers[0] = BUFFER(uint8_t, 0x03);
  a[1]->buffers[1] = BUFFER(int8_t, 9, 1, 77);
  a[1]->dictionary = malloc(sizeof(struct ArrowArray));
  array_of(a[1]->dictionary, 2, 0, 3, 0);
  a[1]->dictionary->buffers[1] = BUFFER(int32_t, 0, 2, 5);
  a[1]->dictionary->buffers[2] = TEXT("noyes");
  array_of(a[2], 2, 0, 4, 0);
  a[2]->buffers[1] = copy("\2\0\0\0hi\0\0\0\0\0\0\0\0\0\0\15\0\0\0hell\0\0\0\0\0\0\0\0", 32);
  a[2]->buffers[2] = TEXT("hello, world!");
  a[2]->buffers[3] = BUFFER(int64_t, 13);
  array_of(a[3], 2, 0, 1, 1);
  array_of(a[3]->children[0], 4, 0, 2, 0);
  a[3]->children[0]->buffers[1] = BUFFER(double, 0.1, 1e300, -0.0, 5);
  array_of(a[4], 2, 0, 2, 0);
  a[4]->buffers[1] = BUFFER(int64_t, 12345, 0, -1, -1);
  array_of(a[5], 2, 1, 2, 0);
  a[5]->buffers[0] = BUFFER(uint8_t, 0xfe);
  a[5]->buffers[1] = BUFFER(int64_t, 0, 1709210096000000);
  array_of(a[6], 2, 2, 0, 0);
}

/* A slice of a slice: the struct starts at 1, its utf8 child at 1 besides. */
void export_slice(struct ArrowSchema *schema, struct ArrowArray *array) {
  export_float32_utf8(schema, array);
  array->offset = 1;
  array->length = 1;
  array->children[1]->offset = 1;
  array->children[1]->length = 2;
}

/* Nothing at all, with absent buffers, as the page allows. */
void export_empty(struct ArrowSchema *schema, struct ArrowArray *array) {
  export_float32_utf8(schema, array);
  array->length = array->children[0]->length = array->children[1]->length = 0;
  for (int i = 0; i < 2; i++)
    for (int k = 0; k < array->children[i]->n_buffers; k++) {
      free((void *)array->children[i]->buffers[k]);
      array->children[i]->buffers[k] = NULL;
    }
}

/* A dense union, a list view and a run-end encoded column: lawful Arrow that the check leaves out. */
void export_union(struct ArrowSchema *schema, struct ArrowArray *array) {
  type_of(schema, "+ud:5,7", "", 2);
  type_of(schema->children[0], "i", "t", 0);
  type_of(schema->children[1], "u", "w", 0);
  array_of(array, 3, 0, 2, 2);
  array->buffers[0] = BUFFER(int8_t, 5, 7, 5);
  array->buffers[1] = BUFFER(int32_t, 0, 0, 1);
  array_of(array->children[0], 2, 0, 2, 0);
  array->children[0]->buffers[1] = BUFFER(int32_t, 10, 11);
  array_of(array->children[1], 1, 0, 3, 0);
  array->children[1]->buffers[1] = BUFFER(int32_t, 0, 2);
  array->children[1]->buffers[2] = TEXT("hi");
}
void export_list_view(struct ArrowSchema *schema, struct ArrowArray *array) {
  type_of(schema, "+vl", "", 1);
  type_of(schema->children[0], "i", "item", 0);
  array_of(array, 2, 0, 3, 1);
  array->buffers[1] = BUFFER(int32_t, 1, 0);
  array->buffers[2] = BUFFER(int32_t, 1, 2);
  array_of(array->children[0], 2, 0, 2, 0);
  array->children[0]->buffers[1] = BUFFER(int32_t, 10, 11);
}
void export_runs(struct ArrowSchema *schema, struct ArrowArray *array) {
  type_of(schema, "+r", "", 2);
  type_of(schema->children[0], "i", "run_ends", 0);
  type_of(schema->children[1], "u", "values", 0);
  array_of(array, 4, 0, 0, 2);
  array_of(array->children[0], 2, 0, 2, 0);
  array->children[0]->buffers[1] = BUFFER(int32_t, 2, 4);
  array_of(array->children[1], 2, 0, 3, 0);
  array->children[1]->buffers[1] = BUFFER(int32_t, 0, 1, 2);
  array->children[1]->buffers[2] = TEXT("ab");
}
void export_decimal64(struct ArrowSchema *schema, struct ArrowArray *array) {
  type_of(schema, "d:18,2,64", "", 0);
  array_of(array, 2, 0, 2, 0);
  array->buffers[1] = BUFFER(int64_t, 1, 2);
}

/* A table of a number, a union, runs, a list view and a text: each left-out column beside those that are checked. */
static void add_column(struct ArrowSchema *schema, struct ArrowArray *array, int i, const char *name,
                       void (*export)(struct ArrowSchema *, struct ArrowArray *)) {
  export(schema->children[i], array->children[i]);
  schema->children[i]->name = name;
}
static void export_three_ints(struct ArrowSchema *schema, struct ArrowArray *array) {
  type_of(schema, "i", "", 0);
  array_of(array, 3, 0, 2, 0);
  array->buffers[1] = BUFFER(int32_t, 1, 2, 3);
}
void export_mixed(struct ArrowSchema *schema, struct ArrowArray *array) {
  type_of(schema, "+s", "", 5);
  array_of(array, 2, 0, 1, 5);
  add_column(schema, array, 0, "number", export_three_ints);
  add_column(schema, array, 1, "kind", export_union);
  add_column(schema, array, 2, "runs", export_runs);
  add_column(schema, array, 3, "tags", export_list_view);
  add_column(schema, array, 4, "last", export_three_ints);
}

/* As many levels of structs of one child as asked for, without rows. */
static void levels(struct ArrowSchema *schema, struct ArrowArray *array, int left) {
  type_of(schema, "+s", "deep", left > 1);
  array_of(array, 0, 0, 1, left > 1);
  if (left > 1) levels(schema->children[0], array->children[0], left - 1);
}
void export_64_levels(struct ArrowSchema *schema, struct ArrowArray *array) { levels(schema, array, 64); }
void bad_65_levels(struct ArrowSchema *schema, struct ArrowArray *array) { levels(schema, array, 65); }

/* ---- Streams, each of three chunks but for what its name says ---- */

enum way { LAWFUL, BREAKS, BREAKS_SILENTLY, FORGES, NO_SCHEMA, NO_CHUNK, ENDLESS, NULL_ROWS, NULL_ITEMS, SPOILT_CHUNK, SPOILT_TYPE,
           OTHER_CHILDREN, INTERRUPTED, INTERRUPTED_AT_THE_END };
struct counted { enum way way; int next; };

static enum way way_of(struct ArrowArrayStream *stream) { return ((struct counted *)stream->private_data)->way; }
static void export_chunk(enum way way, struct ArrowSchema *schema, struct ArrowArray *array) {
  if (way == NULL_ITEMS) {
    type_of(schema, "i", "", 0);
    array_of(array, 1, 1, 2, 0);
    array->buffers[0] = BUFFER(uint8_t, 0);
    array->buffers[1] = BUFFER(int32_t, 0);
    return;
  }
  export_float32_utf8(schema, array);
  if (way == SPOILT_TYPE) schema->children[1]->format = "string";
}
static int stream_schema(struct ArrowArrayStream *stream, struct ArrowSchema *out) {
  struct ArrowArray array;
  int before = released_arrays;
  if (way_of(stream) == NO_SCHEMA) return ENOMEM;
  export_chunk(way_of(stream), out, &array);
  array.release(&array);
  released_arrays = before;
  return 0;
}
static int stream_next(struct ArrowArrayStream *stream, struct ArrowArray *out) {
  struct counted *counted = stream->private_data;
  enum way way = counted->way;
  int number = counted->next++, before = released_schemas;
  if ((way == BREAKS || way == BREAKS_SILENTLY || way == FORGES) && number == 2) return EIO;
  if ((number >= 3 && way != ENDLESS) || way == NO_CHUNK) {
    out->release = NULL;
    return 0;
  }
  struct ArrowSchema schema;
  export_chunk(way, &schema, out);
  schema.release(&schema);
  released_schemas = before;
  if (way == SPOILT_CHUNK && number == 1) out->children[0]->null_count = 0;
  if (way == OTHER_CHILDREN && number == 1) {
    out->children[1]->release(out->children[1]);
    free(out->children[1]);
    out->n_children = 1;
  }
  if (way == NULL_ROWS && number == 1) out->null_count = -1, out->buffers[0] = BUFFER(uint8_t, 0x05);
  if (way == INTERRUPTED && number == 1) raise(SIGINT);
  return 0;
}
static const char *stream_error(struct ArrowArrayStream *stream) {
  const char *text = way_of(stream) == FORGES ? "no\nchunk 9: ok\33[2J" : "the disk is gone";
  return way_of(stream) == BREAKS_SILENTLY ? NULL : text;
}
static void stream_release(struct ArrowArrayStream *stream) {
  if (way_of(stream) == INTERRUPTED_AT_THE_END) raise(SIGINT);
  released_streams++;
  free(stream->private_data);
  stream->release = NULL;
}
static void stream_of(struct ArrowArrayStream *stream, enum way way) {
  struct counted *counted = malloc(sizeof *counted);
  *counted = (struct counted){way, 0};
  *stream = (struct ArrowArrayStream){stream_schema, stream_next, stream_error, stream_release, counted};
}
#define STREAM(name, way) void name(struct ArrowArrayStream *stream) { stream_of(stream, way); }
STREAM(stream_chunks, LAWFUL)
STREAM(stream_breaks, BREAKS)
STREAM(stream_breaks_silently, BREAKS_SILENTLY)
STREAM(stream_forges, FORGES)
STREAM(stream_no_schema, NO_SCHEMA)
STREAM(stream_no_chunk, NO_CHUNK)
STREAM(stream_endless, ENDLESS)
STREAM(stream_null_rows, NULL_ROWS)
STREAM(stream_null_items, NULL_ITEMS)
STREAM(stream_spoilt_chunk, SPOILT_CHUNK)
STREAM(stream_spoilt_type, SPOILT_TYPE)
STREAM(stream_other_children, OTHER_CHILDREN)
STREAM(stream_interrupted, INTERRUPTED)
STREAM(stream_interrupted_at_the_end, INTERRUPTED_AT_THE_END)
void stream_released(struct ArrowArrayStream *stream) {
  stream_of(stream, LAWFUL);
  stream->release(stream);
}
void stream_no_next(struct ArrowArrayStream *stream) {
  stream_of(stream, LAWFUL);
  stream->get_next = NULL;
}

/* ---- Faults. Each makes lawful data and spoils one thing ---- */

#define SPOILT(name, base, ...)                                              \
  void name(struct ArrowSchema *schema, struct ArrowArray *array) {          \
    base(schema, array);                                                     \
    struct ArrowSchema **s = schema->children;                               \
    struct ArrowArray **a = array->children;                                 \
    (void)s, (void)a;                                                        \
    __VA_ARGS__;                                                             \
  }
#define PUT(array, buffer, type, place, value) ((type *)(array)->buffers[buffer])[place] = (value)
#define DROP(array, buffer) free((void *)(array)->buffers[buffer]), (array)->buffers[buffer] = NULL

SPOILT(bad_released_type, export_int32, schema->release(schema))
SPOILT(bad_released_child_type, export_float32_utf8, s[1]->release(s[1]))
SPOILT(bad_format, export_float32_utf8, s[1]->format = "string")
SPOILT(bad_time_format, export_float32_utf8, s[1]->format = "tss")
SPOILT(bad_metadata, export_many, schema->metadata = "\1\0\0\0\4\0\0\0key1\xff\xff\xff\xff")
SPOILT(bad_list_type, export_many, s[3]->n_children = 0)
SPOILT(bad_index_type, export_many, s[1]->format = "f")
SPOILT(bad_map_type, export_many, s[0]->children[0]->format = "+l")
SPOILT(bad_released, export_int32, array->release(array))
SPOILT(bad_released_child, export_float32_utf8, a[0]->release(a[0]))
SPOILT(bad_negative_length, export_float32_utf8, array->length = -1)
SPOILT(bad_negative_child, export_float32_utf8, a[1]->length = -3)
SPOILT(bad_negative_offset, export_float32_utf8, a[1]->offset = -1)
SPOILT(bad_buffer_count, export_float32_utf8, a[1]->n_buffers = 2)
SPOILT(bad_struct_buffers, export_float32_utf8, array->n_buffers = 0)
SPOILT(bad_child_count, export_float32_utf8, array->n_children = 1)
SPOILT(bad_missing_dictionary, export_many, a[1]->dictionary->release(a[1]->dictionary), free(a[1]->dictionary),
       a[1]->dictionary = NULL)
SPOILT(bad_needless_dictionary, export_float32_utf8, a[0]->dictionary = malloc(sizeof(struct ArrowArray)),
       array_of(a[0]->dictionary, 0, 0, 2, 0))
SPOILT(bad_missing_data, export_float32_utf8, DROP(a[0], 1))
SPOILT(bad_missing_offsets, export_float32_utf8, DROP(a[1], 1))
SPOILT(bad_missing_text, export_float32_utf8, DROP(a[1], 2))
SPOILT(bad_last_offset, export_float32_utf8, PUT(a[1], 1, int32_t, 3, 2000000000))
SPOILT(bad_huge_length, export_int32, array->length = INT64_MAX)
SPOILT(bad_offsets, export_float32_utf8, PUT(a[1], 1, int32_t, 1, 4))
SPOILT(bad_first_offset, export_float32_utf8, PUT(a[1], 1, int32_t, 0, -1))
SPOILT(bad_short_child, export_float32_utf8, array->length = 4)
SPOILT(bad_struct_offset, export_float32_utf8, array->offset = 1)
SPOILT(bad_list_offsets, export_many, PUT(a[0]->children[0]->children[1], 1, int32_t, 3, 4))
SPOILT(bad_fixed_list, export_many, a[3]->children[0]->length = 3)
SPOILT(bad_null_count, export_float32_utf8, a[0]->null_count = 0)
SPOILT(bad_view_length, export_many, PUT(a[2], 1, int32_t, 0, -2))
SPOILT(bad_view_buffer, export_many, PUT(a[2], 1, int32_t, 6, 1))
SPOILT(bad_view_offset, export_many, PUT(a[2], 1, int32_t, 7, -1))
SPOILT(bad_view_place, export_many, PUT(a[2], 3, int64_t, 0, 12))
SPOILT(bad_view_prefix, export_many, PUT(a[2], 1, uint8_t, 20, 'i'))
SPOILT(bad_view_text, export_many, PUT(a[2], 2, uint8_t, 8, 0xff))
SPOILT(bad_text, export_float32_utf8, PUT(a[1], 2, uint8_t, 4, 'x'))
SPOILT(bad_dictionary_text, export_many, PUT(a[1]->dictionary, 2, uint8_t, 0, 0xff))
SPOILT(bad_index, export_many, PUT(a[1], 1, int8_t, 1, 2))
SPOILT(bad_negative_index, export_many, PUT(a[1], 1, int8_t, 1, -1))
void bad_window(struct ArrowSchema *schema, struct ArrowArray *array) {
  type_of(schema, "n", "", 0);
  array_of(array, INT64_C(1) << 40, 0, 0, 0);
  array->offset = 1;
}

/* What passes: no rule looks at it, or no rule can. */
SPOILT(bad_null_type_count, export_many, a[6]->null_count = 0)
SPOILT(bad_short_buffer, export_int32, array->length = 6)

/* What no tree shows, and what must not end in a crash. */
static void leaks_type(struct ArrowSchema *schema) { schema->release = NULL; }
static void leaks_array(struct ArrowArray *array) { array->release = NULL; }
static void forgets(struct ArrowArray *array) { (void)array; }
static void frees_twice(struct ArrowArray *array) {
  release_malloced_array(array);
  release_malloced_array(array);
}
/* `size` bytes, behind which no byte is mapped. */
static void *last_bytes(size_t size) {
  size_t page = sysconf(_SC_PAGESIZE);
  uint8_t *two = mmap(NULL, 2 * page, PROT_READ | PROT_WRITE, MAP_PRIVATE | MAP_ANONYMOUS, -1, 0);
  assert(two != MAP_FAILED && munmap(two + page, page) == 0);
  return memset(two + page - size, 'x', size);
}
#define LEAKS schema->release = leaks_type, array->release = leaks_array
SPOILT(bad_end_of_memory, export_int32, LEAKS, array->length = 6, array->buffers[1] = last_bytes(20))
SPOILT(bad_wild_pointer, export_float32_utf8, LEAKS, a[0]->buffers[1] = (void *)8)
SPOILT(bad_wild_name, export_float32_utf8, LEAKS, s[0]->name = (void *)0x7000000000000000)
SPOILT(bad_open_name, export_float32_utf8, LEAKS, s[0]->name = last_bytes(5))
SPOILT(bad_no_format, export_float32_utf8, s[0]->format = NULL)
SPOILT(bad_null_child, export_float32_utf8, LEAKS, array->children[0] = NULL)
SPOILT(bad_null_children, export_float32_utf8, LEAKS, array->children = NULL)
SPOILT(bad_null_buffers, export_float32_utf8, LEAKS, a[0]->release = leaks_array, a[1]->buffers = NULL)
SPOILT(bad_json_metadata, export_float32_utf8, s[1]->metadata = "{\"pandas\": {\"index_columns\": []}}")
SPOILT(bad_long_name, export_float32_utf8, LEAKS, s[0]->name = memset(calloc(1, 2000001), 'n', 2000000))
SPOILT(bad_forged_name, export_float32_utf8, s[0]->name = "x\narray: ok\33[2J", a[0]->null_count = 0)
SPOILT(bad_cycle, export_float32_utf8, LEAKS, array->children[0] = array, schema->children[0] = schema)
SPOILT(bad_many_children, export_float32_utf8, LEAKS, array->n_children = INT64_C(1) << 40)
SPOILT(bad_negative_children, export_float32_utf8, LEAKS, schema->n_children = -1)
SPOILT(bad_mixed_last, export_mixed, a[4]->null_count = 1)
SPOILT(bad_mixed_union, export_mixed, PUT(a[1], 0, int8_t, 1, 6))
SPOILT(bad_mixed_runs, export_mixed, PUT(a[2]->children[0], 1, int32_t, 1, 2))
SPOILT(bad_union, export_union, PUT(array, 0, int8_t, 1, 6))
SPOILT(bad_release, export_int32, array->release = forgets)
SPOILT(bad_double_release, export_float32_utf8, array->release = frees_twice)
