// What the program calls of the C library and of the kit's own C code, over the few functions that the page gives it
// (../host.js). Each of those answers a count, a descriptor or 0, or an error of errno.h with a minus sign.
#include "types.h"

#define FROM_PAGE(name) __attribute__((import_module("host"), import_name(name)))

FROM_PAGE("word") int64_t host_word(size_t number, char *to, size_t room);
FROM_PAGE("open") int64_t host_open(const char *name, size_t length, int32_t flags);
FROM_PAGE("close") int64_t host_close(int32_t file);
FROM_PAGE("read") int64_t host_read(int32_t file, uint8_t *to, size_t room);
FROM_PAGE("write") int64_t host_write(int32_t file, const uint8_t *from, size_t length);
FROM_PAGE("size") int64_t host_size(int32_t file);
FROM_PAGE("size_of") int64_t host_size_of(const char *name, size_t length);
FROM_PAGE("rename") int64_t host_rename(const char *from, size_t from_length, const char *to, size_t to_length);
FROM_PAGE("remove") int64_t host_remove(const char *name, size_t length);

static int32_t last_error;

static int64_t noted(int64_t answer) {
  if (answer >= 0) return answer;
  last_error = (int32_t)-answer;
  return -1;
}

static size_t length_of(const char *name) {
  size_t length = 0;
  while (name[length] != 0) length++;
  return length;
}

int32_t rattle_errno(void) { return last_error; }

void rattle_set_errno(int32_t error) { last_error = error; }

// a word of the program's command line: its length, -1 where there is none, -2 where it doesn't fit
int64_t rattle_arg(size_t number, char *to, size_t room) { return host_word(number, to, room); }

// no variable of an environment is set
int64_t rattle_env(const char *name, char *to, size_t room) { return -1; }

int64_t rattle_env_at(size_t number, char *to, size_t room) { return -1; }

// a page has no signals
void *__sysv_signal(int32_t signal, void *handler) { return NULL; }

int64_t read(int32_t file, uint8_t *to, size_t room) { return noted(host_read(file, to, room)); }

int64_t write(int32_t file, const uint8_t *from, size_t length) { return noted(host_write(file, from, length)); }

int32_t open(const char *name, int32_t flags, ...) { return (int32_t)noted(host_open(name, length_of(name), flags)); }

int32_t close(int32_t file) { return (int32_t)noted(host_close(file)); }

int32_t rename(const char *from, const char *to) {
  return (int32_t)noted(host_rename(from, length_of(from), to, length_of(to)));
}

int32_t unlink(const char *name) { return (int32_t)noted(host_remove(name, length_of(name))); }

// the page stores files before it passes a reply on
int32_t fsync(int32_t file) { return 0; }

// all files may be read and written
int32_t fchmod(int32_t file, uint32_t mode) { return 0; }

enum { NO_SEEK = 29, NOT_MADE = 38 };

// files are read and written from their start to their end
int64_t lseek(int32_t file, int64_t offset, int32_t from) { return noted(-NO_SEEK); }

// the standard library names these, and the program calls none of them
int32_t fdatasync(int32_t file) { return (int32_t)noted(-NOT_MADE); }

int32_t flock(int32_t file, int32_t how) { return (int32_t)noted(-NOT_MADE); }

int32_t ftruncate(int32_t file, int64_t size) { return (int32_t)noted(-NOT_MADE); }

// Linux's struct statx up to the size, and what is left of its 256 bytes
struct statx {
  uint32_t mask, block_size;
  uint64_t attributes;
  uint32_t links, user, group;
  uint16_t mode, spare;
  uint64_t inode, size;
  uint64_t rest[26];
};

_Static_assert(sizeof(struct statx) == 256, "struct statx has 256 bytes");

enum { WITH_TYPE_AND_MODE = 0x3, WITH_SIZE = 0x200, IS_FILE = 0100000, READ_AND_WRITE = 0600 };

// the kind and the size of the file of this name, or of an open file where the name is empty
int32_t statx(int32_t file, const char *name, int32_t flags, uint32_t mask, struct statx *found) {
  int64_t size = noted(name[0] == 0 ? host_size(file) : host_size_of(name, length_of(name)));
  if (size < 0) return -1;
  *found = (struct statx){
      .mask = WITH_TYPE_AND_MODE | WITH_SIZE, .links = 1, .mode = IS_FILE | READ_AND_WRITE, .size = (uint64_t)size};
  return 0;
}

// errors have no texts here, and the program prints none
int32_t __xpg_strerror_r(int32_t error, char *to, size_t room) {
  if (room > 0) to[0] = 0;
  return 0;
}
