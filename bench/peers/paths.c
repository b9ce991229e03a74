#include "paths.h"

bool next_name(struct bytes *path, struct bytes *name) {
  while (path->length > 0 && *path->at == '/')
    *path = (struct bytes){path->at + 1, path->length - 1};
  size_t length = 0;
  while (length < path->length && path->at[length] != '/') length++;
  *name = (struct bytes){path->at, length};
  *path = (struct bytes){path->at + length, path->length - length};
  return length > 0;
}

int dots(struct bytes name) {
  if (name.at[0] != '.' || name.length > 2 || name.at[name.length - 1] != '.') return 0;
  return (int)name.length;
}
