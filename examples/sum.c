/* Consumers of the Arrow C Data Interface, which docs/CHECK.md has tried: they take 32-bit integers and refuse other types.
 *
 *     cc -g -shared -fPIC -Itools examples/sum.c -o libsum.so
 */
#include <stdlib.h>

#include "arrow_tree.h" /* for the structures alone */

static int64_t total; /* of the last array */

static void add_up(const struct ArrowArray *array) {
  const uint8_t *valid = array->buffers[0];
  const int32_t *items = array->buffers[1];
  total = 0;
  for (int64_t i = array->offset; i < array->offset + array->length; i++)
    if (!valid || valid[i / 8] >> i % 8 & 1) total += items[i];
}

int sum(struct ArrowSchema *schema, struct ArrowArray *array) {
  int fault = strcmp(schema->format, "i") || schema->dictionary ? ENOTSUP : 0;
  if (!fault) add_up(array);
  array->release(array);
  schema->release(schema);
  return fault;
}

/* Releases the array before it has read it. */
int wrong_sum(struct ArrowSchema *schema, struct ArrowArray *array) {
  struct ArrowArray kept = *array;
  int fault = strcmp(schema->format, "i") || schema->dictionary ? ENOTSUP : 0;
  array->release(array);
  if (!fault) add_up(&kept);
  schema->release(schema);
  return fault;
}

/* Adds up a copy, which it never frees. */
int forgetful_sum(struct ArrowSchema *schema, struct ArrowArray *array) {
  if (!strcmp(schema->format, "i") && !schema->dictionary && array->length) {
    size_t size = sizeof(int32_t) * (size_t)array->length;
    int32_t *copy = malloc(size);
    memcpy(copy, (const int32_t *)array->buffers[1] + array->offset, size);
    total = copy[0];
  }
  return sum(schema, array);
}

/* Answers with what it was given, moved. */
int same(struct ArrowSchema *schema, struct ArrowArray *array, struct ArrowSchema *out_schema, struct ArrowArray *out) {
  *out_schema = *schema;
  *out = *array;
  schema->release = NULL;
  array->release = NULL;
  return 0;
}
