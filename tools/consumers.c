/* Consumers of the Arrow C Data Interface, for the tests of `arrow_tree.py --consumer`: lawful ones, and beside them those that
 * break one rule each.
 *
 *     cc -std=c11 -Wall -Wextra -O1 -g -shared -fPIC -pthread consumers.c -o libconsumers.so
 */
#define _GNU_SOURCE
#include <pthread.h>
#include <signal.h>
#include <stdlib.h>
#include <sys/wait.h>
#include <unistd.h>

#include "arrow_tree.h"

struct ArrowArrayStream {
  int (*get_schema)(struct ArrowArrayStream *, struct ArrowSchema *);
  int (*get_next)(struct ArrowArrayStream *, struct ArrowArray *);
  const char *(*get_last_error)(struct ArrowArrayStream *);
  void (*release)(struct ArrowArrayStream *);
  void *private_data;
};

#define RELEASE(it) ((it)->release ? (it)->release(it) : (void)0)

/* ---- Steps that a consumer is made of ---- */

/* Reads all that there is, and keeps nothing of it. */
static int look(const struct ArrowSchema *schema, const struct ArrowArray *array) {
  static FILE *nowhere;
  if (!nowhere) nowhere = fopen("/dev/null", "w");
  return arrow_tree_write(nowhere, schema, array, UINT64_C(1) << 30);
}
static struct ArrowSchema schema_out_of(struct ArrowSchema *source) {
  struct ArrowSchema moved = *source;
  source->release = NULL;
  return moved;
}
static struct ArrowArray array_out_of(struct ArrowArray *source) {
  struct ArrowArray moved = *source;
  source->release = NULL;
  return moved;
}
/* The first buffer that has bytes, in the array or below it: its place among the buffers, or NULL. */
static const void **first_buffer(const struct ArrowArray *array) {
  for (int64_t i = 1; array->length && i < array->n_buffers; i++)
    if (array->buffers[i]) return &array->buffers[i];
  for (int64_t i = 0; i < array->n_children; i++) {
    const void **found = first_buffer(array->children[i]);
    if (found) return found;
  }
  return NULL;
}
static volatile unsigned char sink;
static void touch(const void *byte) { sink = *(const volatile unsigned char *)byte; }
static void *release_there(void *array) {
  RELEASE((struct ArrowArray *)array);
  return NULL;
}
/* What nobody may release is read at all of its places: the names, and the first byte of data. */
static void use(const struct ArrowSchema *schema, const struct ArrowArray *array) {
  if (schema) touch(schema->format);
  if (array && first_buffer(array)) touch(*first_buffer(array));
}

/* ---- Consumers of a schema and an array. Each does what its line says, and then releases what is still live ---- */

#define CONSUMER(name, ...)                                       \
  int name(struct ArrowSchema *schema, struct ArrowArray *array) { \
    int fault = look(schema, array);                              \
    __VA_ARGS__;                                                  \
    RELEASE(array);                                               \
    RELEASE(schema);                                              \
    return fault;                                                 \
  }

CONSUMER(good_reader, )
CONSUMER(good_schema_first, schema->release(schema))
CONSUMER(good_move, struct ArrowArray mine = array_out_of(array); struct ArrowSchema type = schema_out_of(schema);
         use(&type, &mine); RELEASE(&type); use(NULL, &mine); RELEASE(&mine))
CONSUMER(good_first_child, if (array->n_children) {
  struct ArrowArray child = array_out_of(array->children[0]);
  RELEASE(array);
  use(NULL, &child);
  RELEASE(&child);
})
CONSUMER(good_children_backwards, struct ArrowArray kept[1000]; int64_t count = array->n_children < 1000 ? array->n_children : 1000;
         for (int64_t i = 0; i < count; i++) kept[i] = array_out_of(array->children[i]);
         RELEASE(array); while (count--) RELEASE(&kept[count]))
CONSUMER(good_dictionary, if (array->dictionary) {
  struct ArrowArray dictionary = array_out_of(array->dictionary);
  RELEASE(array);
  use(NULL, &dictionary);
  RELEASE(&dictionary);
})
CONSUMER(good_thread, pthread_t thread; pthread_create(&thread, NULL, release_there, array); pthread_join(thread, NULL))
CONSUMER(good_fork, pid_t pid = fork(); if (!pid) {
  RELEASE(array);
  _exit(array->release != NULL);
} int status = 0; waitpid(pid, &status, 0); if (status) abort())
CONSUMER(good_refusal, if (array->offset) return ENOTSUP)
int good_untouched(struct ArrowSchema *schema, struct ArrowArray *array) { return (void)schema, (void)array, ENOSYS; }

CONSUMER(bad_released_twice, void (*release)(struct ArrowArray *) = array->release; release(array); release(array))
CONSUMER(bad_copy_released_too, struct ArrowArray copy = *array; RELEASE(array); RELEASE(&copy))
CONSUMER(bad_schema_twice, struct ArrowSchema copy = *schema; RELEASE(schema); RELEASE(&copy))
CONSUMER(bad_never, array->release = NULL)
CONSUMER(bad_schema_never, schema->release = NULL)
int bad_left(struct ArrowSchema *schema, struct ArrowArray *array) { return (void)schema, (void)array, 0; }
CONSUMER(bad_child_kept, if (array->n_children) array->children[0]->release = NULL)
CONSUMER(bad_refusal, if (array->offset) return array->release = NULL, ENOTSUP)
CONSUMER(bad_child_released, if (array->n_children) RELEASE(array->children[0]))
CONSUMER(bad_all_children_released, for (int64_t i = 0; i < array->n_children; i++) RELEASE(array->children[i]))
CONSUMER(bad_moved_parents_child, if (array->n_children) {
  struct ArrowArray mine = array_out_of(array);
  RELEASE(mine.children[0]);
  RELEASE(&mine);
})
CONSUMER(bad_dictionary_released, if (array->dictionary) RELEASE(array->dictionary))
CONSUMER(bad_child_type_released, if (schema->n_children) RELEASE(schema->children[0]))
CONSUMER(bad_source, struct ArrowArray mine = *array; RELEASE(&mine); RELEASE(schema); return fault)
CONSUMER(bad_child_source, if (array->n_children) {
  struct ArrowArray child = *array->children[0];
  RELEASE(&child);
})
CONSUMER(bad_child_of_a_moved_parent, if (array->n_children) {
  struct ArrowArray child = *array->children[0];
  RELEASE(array);
  RELEASE(&child);
})
CONSUMER(bad_read_late, const void **buffer = first_buffer(array); const void *bytes = buffer ? *buffer : ""; RELEASE(array);
         touch(bytes))
CONSUMER(bad_child_late, struct ArrowArray *child = array->n_children ? array->children[0] : array; RELEASE(array);
         touch(&child->length))
CONSUMER(bad_name_late, const char *format = schema->format; RELEASE(schema); touch(format))
CONSUMER(bad_offset_of_nothing, if (array->length + array->offset == 0 && array->n_buffers == 2 && array->buffers[1])
         touch(array->buffers[1]))
CONSUMER(bad_padding, const void **buffer = first_buffer(array); if (buffer) for (int i = 0; i < 1 << 20; i += 64)
         touch((const char *)*buffer + i))
CONSUMER(bad_child_behind_the_last, if (array->n_children) touch(&array->children[array->n_children]->length))
CONSUMER(bad_type_behind_the_last, if (schema->n_children) touch(&schema->children[schema->n_children]->format))
CONSUMER(bad_buffer_behind_the_last, if (array->n_buffers) touch(array->buffers[array->n_buffers]))
CONSUMER(bad_write, const void **buffer = first_buffer(array); if (buffer) *(volatile char *)*buffer = 1)
CONSUMER(bad_name_written, *(volatile char *)schema->format = 'x')
CONSUMER(bad_slice_in_place, array->offset++)
CONSUMER(bad_children_dropped, if (array->n_children) array->n_children = 0)
CONSUMER(bad_private_data, array->private_data = NULL)
CONSUMER(bad_flags, schema->flags ^= 2)

/* What it has lost is seen under AddressSanitizer alone. */
CONSUMER(bad_leak, sink = *(volatile unsigned char *)calloc(1, 7777))

CONSUMER(bad_crash, *(volatile int *)sizeof(int) = 1)
CONSUMER(bad_abort, abort())
CONSUMER(bad_exit, exit(0))
CONSUMER(bad_folder, fault = chdir("/"))
int bad_hang(struct ArrowSchema *schema, struct ArrowArray *array) {
  for (;;) pause();
  return schema && array;
}

/* ---- Consumers of a stream: read to its end or error, with a step at each place ---- */

#define STREAM(name, at_start, at_chunk, at_fault, at_end)                              \
  int name(struct ArrowArrayStream *stream) {                                           \
    struct ArrowSchema schema;                                                          \
    struct ArrowArray array;                                                            \
    const char *text = NULL;                                                            \
    schema.release = NULL, array.release = NULL;                                        \
    (void)text;                                                                         \
    at_start;                                                                           \
    int fault = stream->get_schema(stream, &schema);                                    \
    while (!fault && !(fault = stream->get_next(stream, &array)) && array.release) {    \
      look(&schema, &array);                                                            \
      at_chunk;                                                                         \
      RELEASE(&array);                                                                  \
    }                                                                                   \
    if (fault) {                                                                        \
      text = stream->get_last_error(stream);                                            \
      if (text) touch(text);                                                            \
      at_fault;                                                                         \
    }                                                                                   \
    at_end;                                                                             \
    RELEASE(&schema);                                                                   \
    RELEASE(stream);                                                                    \
    return fault;                                                                       \
  }

STREAM(good_stream, , , , )
STREAM(good_stream_first, , , , RELEASE(stream))
STREAM(good_end_twice, , , , if (!fault) stream->get_next(stream, &array))
STREAM(good_schema_twice, , , , if (!fault) { RELEASE(&schema); stream->get_schema(stream, &schema); })
STREAM(good_one_chunk, , break, , RELEASE(&array))
STREAM(good_moved_stream, struct ArrowArrayStream mine = *stream; stream->release = NULL; stream = &mine, , , )

STREAM(bad_stream_never, , , , stream->release = NULL)
STREAM(bad_stream_twice, , , , struct ArrowArrayStream copy = *stream; RELEASE(stream); copy.release(&copy))
STREAM(bad_stream_source, struct ArrowArrayStream mine = *stream; stream = &mine, , , )
STREAM(bad_chunk_never, , array.release = NULL, , )
STREAM(bad_stream_schema, , , , schema.release = NULL)
STREAM(bad_chunk_at_a_fault, struct ArrowArray kept; kept.release = NULL, RELEASE(&kept); kept = array; array.release = NULL, return fault,
       RELEASE(&kept))
STREAM(bad_lost_error, , , fault = 0, )
STREAM(bad_read_on, , , stream->get_next(stream, &array), )
STREAM(bad_asked, , if (stream->get_last_error(stream)) touch(""), , )
STREAM(bad_old_text, , , RELEASE(stream); if (text) touch(text), )
STREAM(bad_called_late, , , , RELEASE(stream); stream->get_next(stream, &array))
STREAM(bad_end, , , , if (!fault) touch(array.buffers))
STREAM(bad_end_released, , , , if (!fault) array.release(&array))
STREAM(bad_chunk_late, , struct ArrowArray *it = &array; const void **buffer = first_buffer(it); RELEASE(it);
       if (buffer) touch(buffer), , )

/* ---- Consumers that answer with an export of their own ---- */

static void release_wrapped(struct ArrowArray *array) {
  struct ArrowArray *kept = array->private_data;
  if (kept) RELEASE(kept);
  free(kept);
  array->release = NULL;
}
static void stays_marked(struct ArrowArray *array) {
  release_wrapped(array);
  array->release = stays_marked;
}

/* What is answered has the buffers and children of what was given, which it keeps and releases at its own release. */
#define ANSWERER(name, ...)                                                                      \
  int name(struct ArrowSchema *schema, struct ArrowArray *array, struct ArrowSchema *out_schema, \
           struct ArrowArray *out) {                                                             \
    look(schema, array);                                                                         \
    *out_schema = schema_out_of(schema);                                                         \
    *out = *array;                                                                               \
    out->release = release_wrapped;                                                              \
    out->private_data = malloc(sizeof *array);                                                   \
    *(struct ArrowArray *)out->private_data = array_out_of(array);                               \
    __VA_ARGS__;                                                                                 \
    return 0;                                                                                    \
  }
ANSWERER(good_answer, )
ANSWERER(bad_answer, if (out->length) out->length--)
ANSWERER(bad_answer_window, if (out->length > 1) out->length--, out->offset++)
ANSWERER(bad_answer_nulls, out->null_count = 77)
ANSWERER(bad_answer_released, RELEASE(out); RELEASE(out_schema))
ANSWERER(bad_answer_unreleased, out->release = stays_marked)
ANSWERER(bad_answer_too_late, RELEASE((struct ArrowArray *)out->private_data))
ANSWERER(bad_answer_forgotten, out->private_data = NULL; out->release = release_wrapped)
int good_stream_answer(struct ArrowArrayStream *stream, struct ArrowArrayStream *out) {
  *out = *stream;
  stream->release = NULL;
  return 0;
}
/* A stream without its first chunk. */
int bad_stream_answer(struct ArrowArrayStream *stream, struct ArrowArrayStream *out) {
  struct ArrowArray first;
  int fault = stream->get_next(stream, &first);
  if (fault) return fault;
  RELEASE(&first);
  return good_stream_answer(stream, out);
}
