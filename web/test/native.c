// The same steps natively: native PROGRAM FRAMES, where FRAMES is a file of `node frames.mjs`. It prints how much of the processor's time they take, and
// the world's line.
//
//   cc -O2 -o native web/test/native.c WORK/libcroquet_page.a KIT/c/liblibc_c.a
#include <stdint.h>
#include <stdio.h>
#include <stdlib.h>
#include <string.h>
#include <time.h>

typedef struct {
  uint64_t time, text, frames, unacknowledged, kept;
  uint32_t seen, status, want, end, code, here;
} told;
typedef struct { void *at; } handle;

uint32_t page_seat(void **);
uint32_t page_open(handle *, const uint8_t *, size_t, const uint8_t *, size_t, uint32_t);
void page_step(handle *, uint32_t, const uint8_t *, size_t, told *);
void page_world(handle *, told *);
uint64_t page_text(handle *, uint8_t *, size_t);
void page_close(handle *);

enum { LINKED, LINK_FAILED, FRAME };

static double now(void) {
  struct timespec t;
  clock_gettime(CLOCK_PROCESS_CPUTIME_ID, &t);
  return t.tv_sec * 1e6 + t.tv_nsec / 1e3;
}

static uint8_t *contents(const char *path, size_t *size) {
  FILE *file = fopen(path, "rb");
  if (!file) exit(1);
  fseek(file, 0, SEEK_END);
  *size = (size_t)ftell(file);
  rewind(file);
  uint8_t *bytes = malloc(*size + 1);
  if (!bytes || fread(bytes, 1, *size, file) != *size) exit(1);
  fclose(file);
  return bytes;
}

static size_t length_at(const uint8_t *bytes) {
  return (size_t)bytes[0] << 24 | (size_t)bytes[1] << 16 | (size_t)bytes[2] << 8 | bytes[3];
}

int main(int count, char **words) {
  if (count != 3) return 1;
  size_t program_size, size;
  uint8_t *program = contents(words[1], &program_size), *frames = contents(words[2], &size);
  const uint8_t *name = (const uint8_t *)"board";
  handle page;
  told says;
  if (page_seat(&page.at)) return 8;
  for (int run = 0; run < 5; run++) {
    double from = now();
    if (page_open(&page, program, program_size, name, strlen((const char *)name), 7)) return 2;
    double opened = now() - from;
    page_step(&page, LINKED, name, 0, &says);
    int steps = 0;
    from = now();
    for (size_t at = 0; at < size; at += 4 + length_at(frames + at), steps++) {
      page_step(&page, FRAME, frames + at + 4, length_at(frames + at), &says);
      if (says.status || says.want) return printf("status %u want %u end %u\n", says.status, says.want, says.end), 1;
    }
    double stepped = now() - from;
    from = now();
    page_world(&page, &says);
    printf("opened %.0f us, %d frames %.1f us each, the world's text %.0f us\n", opened, steps, stepped / steps, now() - from);
  }
  uint8_t *text = malloc(says.text + 1);
  page_text(&page, text, says.text);
  for (size_t at = 0; at < says.text && text[at] != '\n'; at++) putchar(text[at]);
  putchar('\n');
  page_close(&page);
  return 0;
}
