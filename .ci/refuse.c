/* Loaded before a program, so that its requests for memory come here. WY_REFUSE=N has the Nth find none, and then makes the file
   WY_LOG. WY_REFUSE=each has a copy of the process go on from each request as if that one found none; WY_LOG gets a line for
   each: the copy's status, and what it wrote on standard output and on standard error from there on, in hexadecimal digits. */
#define _GNU_SOURCE
#include <errno.h>
#include <fcntl.h>
#include <stdio.h>
#include <stdlib.h>
#include <string.h>
#include <sys/mman.h>
#include <sys/wait.h>
#include <unistd.h>

extern void *__libc_malloc(size_t);
extern void *__libc_realloc(void *, size_t);

static int is_copy;

static int opened_log(void) {
  int log = open(getenv("WY_LOG"), O_CREAT | O_WRONLY | O_APPEND, 0600);
  if (log < 0) abort();
  return log;
}

static void write_number(int log, int status) {
  char digits[16];
  int count = snprintf(digits, sizeof digits, "%d ", status);
  if (write(log, digits, count) != count) abort();
}

/* Appends what a file in memory has. */
static void write_bytes(int log, int file, char last) {
  unsigned char byte;
  for (off_t at = 0; pread(file, &byte, 1, at) == 1; at++) {
    char digits[2] = {"0123456789abcdef"[byte >> 4], "0123456789abcdef"[byte & 15]};
    if (write(log, digits, 2) != 2) abort();
  }
  if (write(log, &last, 1) != 1) abort();
}

/* Whether this is the copy, in which the request finds no memory. The process itself waits for its end, and goes on. */
static int is_refused_in_a_copy(void) {
  int out = memfd_create("out", 0), err = memfd_create("err", 0), status;
  if (out < 0 || err < 0) abort();
  pid_t copy = fork();
  if (copy < 0) abort();
  if (copy == 0) {
    is_copy = 1;
    dup2(out, 1);
    dup2(err, 2);
    return 1;
  }
  if (waitpid(copy, &status, 0) != copy) abort();
  int log = opened_log();
  write_number(log, WIFEXITED(status) ? WEXITSTATUS(status) : -WTERMSIG(status));
  write_bytes(log, out, ' ');
  write_bytes(log, err, '\n');
  close(log);
  close(out);
  close(err);
  return 0;
}

static int is_refused(void) {
  static long requests;
  const char *which = getenv("WY_REFUSE");
  long number = __atomic_add_fetch(&requests, 1, __ATOMIC_SEQ_CST);
  if (!which || is_copy) return 0;
  if (strcmp(which, "each") == 0) {
    if (!is_refused_in_a_copy()) return 0;
  } else if (number == atol(which)) {
    close(opened_log());
  } else {
    return 0;
  }
  errno = ENOMEM;
  return 1;
}

void *malloc(size_t size) { return is_refused() ? NULL : __libc_malloc(size); }
void *realloc(void *at, size_t size) { return is_refused() ? NULL : __libc_realloc(at, size); }
