/* Writes what examples/people.c exports as a text for `arrowpipe --check`, without Python.
 *
 *     cc -Itools examples/write_people.c examples/people.c -o write_people
 */
#include "arrow_tree.h"

void people(struct ArrowSchema *schema, struct ArrowArray *array);

int main(void) {
  struct ArrowSchema schema;
  struct ArrowArray array;
  people(&schema, &array);
  int fault = arrow_tree_write(stdout, &schema, &array, 1 << 20);
  array.release(&array);
  schema.release(&schema);
  return fault != 0;
}
