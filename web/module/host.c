// What the crate os asks of a C library, answered by three imports of the page: the program's words, its input and its output. It has no environment, no
// place in its input to go to, and no signals. And the page's way in: `run` is main, and `held` is room for its stack while it waits for a line.
typedef unsigned long size;
typedef unsigned char byte;

#define IMPORT(name) __attribute__((import_module("host"), import_name(name)))
#define EXPORT(name) __attribute__((export_name(name)))
#define ILLEGAL_SEEK 29
#define HELD 131072

IMPORT("word") long host_word(size index, byte *into, size room);
IMPORT("read") long host_read(byte *into, size room);
IMPORT("write") long host_write(const byte *from, size length);

static int error;
static byte stack[HELD] __attribute__((aligned(16)));

long rattle_arg(size index, byte *into, size room) { return host_word(index, into, room); }
long rattle_env_at(size index, byte *into, size room) { return -1; }
long rattle_env(const byte *name, byte *into, size room) { return -1; }
int rattle_errno(void) { return error; }
void rattle_set_errno(int number) { error = number; }

long read(int file, byte *into, size room) { return host_read(into, room); }
long write(int file, const byte *from, size length) { return host_write(from, length); }

long lseek(int file, long offset, int from) {
  error = ILLEGAL_SEEK;
  return -1;
}

long __sysv_signal(int number, long action) { return 0; }

int program(void) __asm__("main");

EXPORT("run") int run(void) { return program(); }
EXPORT("held") void *held(void) { return stack; }
EXPORT("held_size") size held_size(void) { return HELD; }
