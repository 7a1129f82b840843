/* Writes a live schema and its array as the text that `arrowpipe --check` takes (docs/FORMATS.md, "Trees as texts").
 *
 *     #include "arrow_tree.h"
 *     int fault = arrow_tree_write(stdout, &schema, &array, 1 << 28);
 *
 * It is C99 and C++11, for 64-bit little-endian platforms. It allocates nothing, releases nothing and changes nothing. Of each
 * buffer it reads as many bytes as type, length, offset and offsets ask for, so a pointer that leads nowhere ends in a crash.
 */
#ifndef ARROW_TREE_H
#define ARROW_TREE_H

#include <errno.h>
#include <inttypes.h>
#include <stdint.h>
#include <stdio.h>
#include <string.h>

#ifndef ARROW_C_DATA_INTERFACE
#define ARROW_C_DATA_INTERFACE

#define ARROW_FLAG_DICTIONARY_ORDERED 1
#define ARROW_FLAG_NULLABLE 2
#define ARROW_FLAG_MAP_KEYS_SORTED 4

struct ArrowSchema {
  const char *format, *name, *metadata;
  int64_t flags, n_children;
  struct ArrowSchema **children, *dictionary;
  void (*release)(struct ArrowSchema *);
  void *private_data;
};
struct ArrowArray {
  int64_t length, null_count, offset, n_buffers, n_children;
  const void **buffers;
  struct ArrowArray **children, *dictionary;
  void (*release)(struct ArrowArray *);
  void *private_data;
};
#endif

#define ARROW_TREE_LEVELS 64
#define ARROW_TREE_COUNT (1 << 20)

/* A text that is being written: how many bytes may still come, and the first fault. */
struct arrow_tree {
  FILE *out;
  uint64_t left;
  int fault, is_deep;
};

static inline void arrow_tree_fail(struct arrow_tree *tree, int fault) {
  if (!tree->fault) tree->fault = fault;
}
static inline void arrow_tree_put(struct arrow_tree *tree, const char *text, size_t size) {
  if (tree->fault) return;
  if (size > tree->left) {
    arrow_tree_fail(tree, EFBIG);
    return;
  }
  tree->left -= size;
  errno = 0;
  if (size && fwrite(text, 1, size, tree->out) != size) arrow_tree_fail(tree, errno ? errno : EIO);
}
static inline void arrow_tree_line(struct arrow_tree *tree, const char *text) {
  arrow_tree_put(tree, text, strlen(text));
  arrow_tree_put(tree, "\n", 1);
}
static inline void arrow_tree_lines(struct arrow_tree *tree, const char *text, int64_t times) {
  while (times-- > 0 && !tree->fault) arrow_tree_line(tree, text);
}
static inline void arrow_tree_number(struct arrow_tree *tree, int64_t number) {
  char text[32];
  arrow_tree_put(tree, text, (size_t)snprintf(text, sizeof text, " %" PRId64, number));
}

/* Bytes as a token, or as pairs of hexadecimal digits; nothing of them where they are more than may come. */
static inline void arrow_tree_token(struct arrow_tree *tree, const char *bytes, uint64_t size) {
  char text[3];
  if (size > tree->left) arrow_tree_fail(tree, EFBIG);
  arrow_tree_put(tree, bytes ? " =" : " ~", 2);
  for (uint64_t i = 0; bytes && i < size && !tree->fault; i++) {
    unsigned byte = (unsigned char)bytes[i];
    int is_plain = byte > 0x20 && byte < 0x7f && byte != '%';
    text[0] = is_plain ? (char)byte : '%';
    text[1] = "0123456789ABCDEF"[byte >> 4];
    text[2] = "0123456789ABCDEF"[byte & 15];
    arrow_tree_put(tree, text, is_plain ? 1 : 3);
  }
}
static inline void arrow_tree_hex(struct arrow_tree *tree, const unsigned char *bytes, uint64_t size) {
  char text[1024];
  size_t used = 0;
  if (size > tree->left / 2) arrow_tree_fail(tree, EFBIG);
  for (uint64_t i = 0; i < size && !tree->fault; i++) {
    text[used++] = "0123456789abcdef"[bytes[i] >> 4];
    text[used++] = "0123456789abcdef"[bytes[i] & 15];
    if (used == sizeof text || i + 1 == size) {
      arrow_tree_put(tree, text, used);
      used = 0;
    }
  }
}

/* How long a text is, or one more than may come. */
static inline uint64_t arrow_tree_length(const struct arrow_tree *tree, const char *text) {
  uint64_t size = 0;
  while (text && size <= tree->left && text[size]) size++;
  return size;
}
/* How many bytes metadata have: up to the last value, or to a number below 0 ("ArrowSchema.metadata"). */
static inline uint64_t arrow_tree_metadata(const struct arrow_tree *tree, const char *metadata) {
  uint64_t size = 4;
  int32_t length;
  memcpy(&length, metadata, 4);
  for (int64_t more = 2 * (int64_t)length; more > 0 && size <= tree->left; more--) {
    memcpy(&length, metadata + size, 4);
    size += 4 + (uint64_t)(length > 0 ? length : 0);
    if (length < 0) break;
  }
  return size;
}

/* A node of the schema tree, and what is below it. */
static inline void arrow_tree_schema(struct arrow_tree *tree, const struct ArrowSchema *node, int level) {
  if (level > ARROW_TREE_LEVELS) tree->is_deep = 1;
  if (tree->is_deep || (node && !node->release)) {
    arrow_tree_line(tree, "S !");
    return;
  }
  if (!node || !node->format || node->n_children < 0 || node->n_children > ARROW_TREE_COUNT ||
      (node->n_children && !node->children))
    arrow_tree_fail(tree, EINVAL);
  if (tree->fault) return;
  arrow_tree_put(tree, "S", 1);
  arrow_tree_token(tree, node->format, arrow_tree_length(tree, node->format));
  arrow_tree_token(tree, node->name, arrow_tree_length(tree, node->name));
  arrow_tree_number(tree, node->flags);
  arrow_tree_number(tree, node->n_children);
  arrow_tree_number(tree, node->dictionary != NULL);
  arrow_tree_token(tree, node->metadata, node->metadata ? arrow_tree_metadata(tree, node->metadata) : 0);
  arrow_tree_line(tree, "");
  for (int64_t i = 0; i < node->n_children && !tree->fault; i++) arrow_tree_schema(tree, node->children[i], level + 1);
  if (node->dictionary) arrow_tree_schema(tree, node->dictionary, level + 1);
}

/* Whether a word is among those in a list with spaces between them. */
static inline int arrow_tree_is_among(const char *word, const char *list) {
  size_t size = strcspn(word, " ") == strlen(word) ? strlen(word) : 0;
  for (const char *at = list; size && (at = strstr(at, word)) != NULL; at += size)
    if ((at == list || at[-1] == ' ') && (at[size] == ' ' || !at[size])) return 1;
  return 0;
}
/* Digits at `*at`, from `least` to `most` of them, as a number; -1 where there are none such. */
static inline int64_t arrow_tree_digits(const char **at, int most) {
  int64_t number = 0;
  int count = 0;
  for (; **at >= '0' && **at <= '9'; ++*at, ++count) number = count < most ? 10 * number + (**at - '0') : -1;
  return count > 0 && count <= most ? number : -1;
}

/* What the buffers of a type hold ("Buffer Listing for Each Layout"): the bits of an item, and a letter for each. `+` means one
 * item more, `@` the bytes up to the last offset, `v` the buffers behind views. No type of Arrow has no letters at all. */
struct arrow_tree_layout {
  const char *kinds;
  int64_t bits[3];
};
static inline int arrow_tree_is_decimal(const char *format, int64_t *bits) {
  const char *at = format + 2;
  int count = 0;
  if (strncmp(format, "d:", 2) != 0) return 0;
  for (; *at >= '0' && *at <= '9'; at++) count++;
  if (!count || *at++ != ',') return 0;
  if (*at == '-') at++;
  for (count = 0; *at >= '0' && *at <= '9'; at++) count++;
  *bits = 128;
  if (count && *at == ',') {
    at++;
    *bits = arrow_tree_digits(&at, 4);
  }
  return count && !*at && *bits >= 0;
}
static inline int arrow_tree_is_binary(const char *format, int64_t *bits) {
  const char *at = format + 2;
  if (strncmp(format, "w:", 2) != 0) return 0;
  *bits = arrow_tree_digits(&at, 10);
  if (*bits < 0 || *at) return 0;
  *bits *= 8;
  return 1;
}
static inline int arrow_tree_starts(const char *format, const char *head) { return !strncmp(format, head, strlen(head)); }
static inline int64_t arrow_tree_item(const char *format) {
  int64_t bits = -1;
  if (arrow_tree_is_among(format, "b")) return 1;
  if (arrow_tree_is_among(format, "c C")) return 8;
  if (arrow_tree_is_among(format, "s S e")) return 16;
  if (arrow_tree_is_among(format, "i I f tdD tts ttm tiM")) return 32;
  if (arrow_tree_is_among(format, "l L g tdm ttu ttn tDs tDm tDu tDn tiD")) return 64;
  if (arrow_tree_starts(format, "ts") && strlen(format) > 3 && strchr("smun", format[2]) && format[3] == ':') return 64;
  if (arrow_tree_is_among(format, "tin")) return 128;
  if (arrow_tree_is_decimal(format, &bits) || arrow_tree_is_binary(format, &bits)) return bits;
  return -1;
}
static inline struct arrow_tree_layout arrow_tree_layout(const char *format) {
  struct arrow_tree_layout found = {"..", {1, arrow_tree_item(format), 0}};
  if (found.bits[1] >= 0) return found;
  found.bits[1] = found.bits[2] = strpbrk(format, "UZL") ? 64 : 32;
  if (arrow_tree_is_among(format, "u z U Z")) found.kinds = ".+@";
  else if (arrow_tree_is_among(format, "+l +m +L")) found.kinds = ".+";
  else if (arrow_tree_is_among(format, "+vl +vL")) found.kinds = "...";
  else if (arrow_tree_is_among(format, "vu vz")) found.kinds = "..v", found.bits[1] = 128;
  else if (arrow_tree_is_among(format, "+s") || arrow_tree_starts(format, "+w:")) found.kinds = ".";
  else if (arrow_tree_starts(format, "+us:")) found.kinds = ".", found.bits[0] = 8;
  else if (arrow_tree_starts(format, "+ud:")) found.bits[0] = 8;
  else found.kinds = arrow_tree_is_among(format, "n +r") ? "" : NULL;
  return found;
}

/* How many bytes a buffer needs where the window ends before item `n`; the most there are, where they are more than may come. */
static inline uint64_t arrow_tree_size(const struct arrow_tree *tree, const struct ArrowArray *node, uint64_t n,
                                       char kind, int64_t bits) {
  int64_t last = 0;
  int32_t short_last = 0;
  if (!n || !bits) return 0;
  if (kind == '@') {
    const char *offsets = (const char *)node->buffers[1];
    if (offsets && bits == 64) memcpy(&last, offsets + 8 * n, 8);
    if (offsets && bits == 32) memcpy(&short_last, offsets + 4 * n, 4), last = short_last;
    return last > 0 ? (uint64_t)last : 0;
  }
  if (n > (tree->left * 4 + 64) / (uint64_t)bits) return UINT64_MAX;
  return ((n + (kind == '+')) * (uint64_t)bits + 7) / 8;
}
static inline void arrow_tree_buffer(struct arrow_tree *tree, const void *bytes, uint64_t size) {
  arrow_tree_put(tree, bytes ? "B =" : "B ~", 3);
  if (bytes) arrow_tree_hex(tree, (const unsigned char *)bytes, size);
  arrow_tree_line(tree, "");
}
/* The buffers behind views: those of data, and the lengths of these. */
static inline void arrow_tree_data(struct arrow_tree *tree, const struct ArrowArray *node) {
  int64_t count = node->n_buffers - 3, length;
  const char *lengths = (const char *)node->buffers[count + 2];
  if (count && !lengths) arrow_tree_fail(tree, EINVAL);
  for (int64_t i = 0; i < count && !tree->fault; i++) {
    memcpy(&length, lengths + 8 * i, 8);
    arrow_tree_buffer(tree, node->buffers[i + 2], length > 0 ? (uint64_t)length : 0);
  }
  arrow_tree_buffer(tree, lengths, 8 * (uint64_t)count);
}
static inline void arrow_tree_buffers(struct arrow_tree *tree, const char *format, const struct ArrowArray *node) {
  struct arrow_tree_layout layout = arrow_tree_layout(format);
  int has_views = layout.kinds && strchr(layout.kinds, 'v') != NULL;
  int64_t count = layout.kinds ? (int64_t)strlen(layout.kinds) : -1;
  if ((has_views ? node->n_buffers < 3 : node->n_buffers != count) || node->length < 0 || node->offset < 0) {
    arrow_tree_lines(tree, "B ~", node->n_buffers);
    return;
  }
  if (node->n_buffers && !node->buffers) arrow_tree_fail(tree, EINVAL);
  for (int64_t i = 0; i < count - has_views && !tree->fault; i++) {
    uint64_t n = (uint64_t)node->length + (uint64_t)node->offset;
    arrow_tree_buffer(tree, node->buffers[i],
                      node->buffers[i] ? arrow_tree_size(tree, node, n, layout.kinds[i], layout.bits[i]) : 0);
  }
  if (has_views && !tree->fault) arrow_tree_data(tree, node);
}

/* A node of the array tree by its schema's (NULL where that is released), and what is below it. What a wrong count counts isn't
 * read: that count's rule comes before those of what is written instead. */
static inline void arrow_tree_array(struct arrow_tree *tree, const struct ArrowSchema *schema, const struct ArrowArray *node) {
  if (tree->is_deep || (node && !node->release)) {
    arrow_tree_line(tree, "A !");
    return;
  }
  if (!node || node->n_children < 0 || node->n_children > ARROW_TREE_COUNT || node->n_buffers < 0 ||
      node->n_buffers > ARROW_TREE_COUNT)
    arrow_tree_fail(tree, EINVAL);
  if (tree->fault) return;
  if (schema && !schema->release) schema = NULL;
  const int64_t members[] = {node->length,    node->null_count, node->offset,
                             node->n_buffers, node->n_children, node->dictionary != NULL};
  arrow_tree_put(tree, "A", 1);
  for (int i = 0; i < 6; i++) arrow_tree_number(tree, members[i]);
  arrow_tree_line(tree, "");
  arrow_tree_buffers(tree, schema ? schema->format : "", node);
  int is_counted = node->n_children == (schema ? schema->n_children : 0);
  if (is_counted && node->n_children && !node->children) arrow_tree_fail(tree, EINVAL);
  for (int64_t i = 0; is_counted && i < node->n_children && !tree->fault; i++)
    arrow_tree_array(tree, schema->children[i], node->children[i]);
  int is_named = schema && schema->dictionary;
  arrow_tree_lines(tree, "A !", (is_counted ? 0 : node->n_children) + (node->dictionary && !is_named));
  if (node->dictionary && is_named) arrow_tree_array(tree, schema->dictionary, node->dictionary);
}

/* Writes the text of a schema and its array, or of a schema alone where `array` is NULL, in at most `most` bytes. Answers 0, or
 * EFBIG where the text is longer, EINVAL where a pointer is null that mayn't be or a count is no text's, or why writing failed.
 * On an answer that isn't 0 a part of the text may have been written. */
static inline int arrow_tree_write(FILE *out, const struct ArrowSchema *schema, const struct ArrowArray *array, uint64_t most) {
  struct arrow_tree tree = {out, most < (UINT64_C(1) << 60) ? most : UINT64_C(1) << 60, 0, 0};
  arrow_tree_line(&tree, "tree 1");
  arrow_tree_schema(&tree, schema, 1);
  if (array) arrow_tree_array(&tree, schema, array);
  else arrow_tree_line(&tree, "A !");
  if (fflush(out)) arrow_tree_fail(&tree, errno);
  return tree.fault;
}

#endif
