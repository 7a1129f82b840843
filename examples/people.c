/* Three rows of two columns, handed over by the Arrow C Data Interface: what docs/CHECK.md has checked. Each export has memory
 * of its own, which its release frees, so exports, chunks and streams can be released in any order.
 *
 *     cc -g -shared -fPIC examples/people.c -o libpeople.so
 */
#include <stdint.h>
#include <stdlib.h>
#include <string.h>

struct ArrowSchema {
  const char *format, *name, *metadata;
  int64_t flags, n_children;
  struct ArrowSchema **children, *dictionary;
  void (*release)(struct ArrowSchema *);
  void *private_data;
};
struct ArrowArray {
  int64_t length, null_count, offset, n_buffers, n_children;
  const void **buffers;
  struct ArrowArray **children, *dictionary;
  void (*release)(struct ArrowArray *);
  void *private_data;
};
struct ArrowArrayStream {
  int (*get_schema)(struct ArrowArrayStream *, struct ArrowSchema *);
  int (*get_next)(struct ArrowArrayStream *, struct ArrowArray *);
  const char *(*get_last_error)(struct ArrowArrayStream *);
  void (*release)(struct ArrowArrayStream *);
  void *private_data;
};

/* A release calls those of the children that are still there (a consumer may have moved one out and marked it released), frees
 * what belongs to the structure, and marks it. Texts that are constants of the program needn't be freed. */
static void release_schema(struct ArrowSchema *schema) {
  for (int64_t i = 0; i < schema->n_children; i++) {
    if (schema->children[i]->release) schema->children[i]->release(schema->children[i]);
    free(schema->children[i]);
  }
  free(schema->children);
  schema->release = NULL;
}
static void release_array(struct ArrowArray *array) {
  for (int64_t i = 0; i < array->n_children; i++) {
    if (array->children[i]->release) array->children[i]->release(array->children[i]);
    free(array->children[i]);
  }
  free(array->children);
  for (int64_t i = 0; i < array->n_buffers; i++) free((void *)array->buffers[i]);
  free(array->buffers);
  array->release = NULL;
}

/* Structures with room for their children and buffers. (A program would look whether malloc gives null.) */
static void make_schema(struct ArrowSchema *schema, const char *format, const char *name, int64_t flags, int64_t n_children) {
  *schema = (struct ArrowSchema){
      .format = format, .name = name, .flags = flags, .n_children = n_children, .release = release_schema};
  schema->children = calloc(n_children + 1, sizeof(void *));
  for (int64_t i = 0; i < n_children; i++) schema->children[i] = calloc(1, sizeof(struct ArrowSchema));
}
static void make_array(struct ArrowArray *array, int64_t nulls, int64_t n_buffers, int64_t n_children) {
  *array = (struct ArrowArray){
      .length = 3, .null_count = nulls, .n_buffers = n_buffers, .n_children = n_children, .release = release_array};
  array->buffers = calloc(n_buffers, sizeof(void *));
  array->children = calloc(n_children + 1, sizeof(void *));
  for (int64_t i = 0; i < n_children; i++) array->children[i] = calloc(1, sizeof(struct ArrowArray));
}
static const void *copy(const void *bytes, size_t size) { return memcpy(malloc(size), bytes, size); }

static void people_type(struct ArrowSchema *schema) {
  make_schema(schema, "+s", "", 0, 2);
  make_schema(schema->children[0], "u", "name", 0, 0);
  make_schema(schema->children[1], "d:10,2", "amount", 2, 0);
}
static void people_array(struct ArrowArray *array, int64_t nulls) {
  static const int32_t offsets[] = {0, 3, 7, 12};
  static const uint8_t valid[] = {0x05}; /* the second amount is null */
  static const int64_t amounts[] = {1250, 0, 0, 0, -99, -1};
  make_array(array, 0, 1, 2);
  make_array(array->children[0], 0, 3, 0);
  array->children[0]->buffers[1] = copy(offsets, sizeof offsets);
  array->children[0]->buffers[2] = copy("AdaEmmyGrace", 12);
  make_array(array->children[1], nulls, 2, 0);
  array->children[1]->buffers[0] = copy(valid, sizeof valid);
  array->children[1]->buffers[1] = copy(amounts, sizeof amounts);
}

void people(struct ArrowSchema *schema, struct ArrowArray *array) {
  people_type(schema);
  people_array(array, 1);
}

/* Its second column says that it has no null. */
void wrong_people(struct ArrowSchema *schema, struct ArrowArray *array) {
  people_type(schema);
  people_array(array, 0);
}

/* Its release forgets the children. */
static void forgetful_release(struct ArrowArray *array) { array->release = NULL; }
void leaking_people(struct ArrowSchema *schema, struct ArrowArray *array) {
  people(schema, array);
  array->release = forgetful_release;
}

/* The same as a stream of four chunks, of which the last is wrong. How many were given is the stream's own. */
static int get_schema(struct ArrowArrayStream *stream, struct ArrowSchema *out) {
  (void)stream;
  people_type(out);
  return 0;
}
static int get_next(struct ArrowArrayStream *stream, struct ArrowArray *out) {
  int64_t *given = stream->private_data;
  out->release = NULL;
  if (*given < 4) people_array(out, (*given)++ < 3);
  return 0;
}
static const char *get_last_error(struct ArrowArrayStream *stream) {
  (void)stream;
  return NULL;
}
static void release_stream(struct ArrowArrayStream *stream) {
  free(stream->private_data);
  stream->release = NULL;
}
void people_stream(struct ArrowArrayStream *stream) {
  *stream = (struct ArrowArrayStream){get_schema, get_next, get_last_error, release_stream, calloc(1, sizeof(int64_t))};
}
