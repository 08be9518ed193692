/* What a play of a mix has at least to do, as a plain program: it maps two mono WAV files, halves the first, adds the
   second, clamps the sums, codes them as A-law by a table, and writes the WAV file, in one pass and one thread.
   Its words: FIRST SECOND RESULT. The made files of `make` and their script give the same bytes. */
#include <fcntl.h>
#include <stdint.h>
#include <stdio.h>
#include <stdlib.h>
#include <string.h>
#include <sys/mman.h>
#include <sys/stat.h>
#include <unistd.h>

enum { GAIN = 2048, HEAD = 58, PIECE = 65536 };

struct samples {
  const int16_t *at;
  size_t count;
};

static void fail(const char *name) {
  perror(name);
  exit(1);
}

/* The samples of a mapped file: the content of its first chunk `data`. */
static struct samples samples_of(const char *name) {
  int file = open(name, O_RDONLY);
  struct stat about;
  if (file < 0 || fstat(file, &about) < 0) fail(name);
  size_t size = about.st_size, at = 12;
  const uint8_t *bytes = mmap(NULL, size, PROT_READ, MAP_PRIVATE, file, 0);
  if (bytes == MAP_FAILED) fail(name);
  while (at + 8 <= size) {
    uint32_t length;
    memcpy(&length, bytes + at + 4, 4);
    if (!memcmp(bytes + at, "data", 4)) {
      if (length > size - at - 8) length = size - at - 8;
      return (struct samples){(const int16_t *)(bytes + at + 8), length / 2};
    }
    at += 8 + length + length % 2;
  }
  fprintf(stderr, "%s: no samples\n", name);
  exit(1);
}

/* The code of the 16 samples whose upper twelve bits are these. */
static uint8_t code_of(int upper) {
  int magnitude = upper < 0 ? ~upper : upper, segment = 0;
  while (magnitude >> segment > 31) segment++;
  int step = 16 * segment + (magnitude >> segment);
  return (step + (upper < 0 ? 0 : 128)) ^ 0x55;
}

/* The sum of the two samples of that place, as a sample. A file that has ended gives zeros. */
static int mixed(struct samples first, struct samples second, size_t at) {
  int sum = (at < first.count ? first.at[at] * GAIN >> 12 : 0) + (at < second.count ? second.at[at] : 0);
  return sum < -32768 ? -32768 : sum > 32767 ? 32767 : sum;
}

/* The head of a mono file of so many frames of A-law at a rate of 8,000. */
static void put_head(uint8_t *to, uint32_t frames) {
  const uint32_t format = 18, rate = 8000, fact = 4, size = HEAD - 8 + frames + frames % 2;
  const uint16_t fields[] = {6, 1, rate, 0, rate, 0, 1, 8, 0};
  memcpy(to, "RIFF", 4), memcpy(to + 4, &size, 4), memcpy(to + 8, "WAVEfmt ", 8);
  memcpy(to + 16, &format, 4), memcpy(to + 20, fields, sizeof fields);
  memcpy(to + 38, "fact", 4), memcpy(to + 42, &fact, 4), memcpy(to + 46, &frames, 4);
  memcpy(to + 50, "data", 4), memcpy(to + 54, &frames, 4);
}

static void put_all(int file, const uint8_t *from, size_t count, const char *name) {
  while (count > 0) {
    ssize_t written = write(file, from, count);
    if (written <= 0) fail(name);
    from += written, count -= written;
  }
}

int main(int count, char **words) {
  static uint8_t codes[4096], piece[PIECE];
  if (count != 4) return fputs("usage: floor FIRST SECOND RESULT\n", stderr), 2;
  struct samples first = samples_of(words[1]), second = samples_of(words[2]);
  for (int upper = -2048; upper < 2048; upper++) codes[upper + 2048] = code_of(upper);
  int file = open(words[3], O_WRONLY | O_CREAT | O_TRUNC, 0666);
  if (file < 0) fail(words[3]);
  size_t frames = first.count > second.count ? first.count : second.count, filled = HEAD;
  put_head(piece, frames);
  for (size_t at = 0; at < frames; at++) {
    if (filled == PIECE) put_all(file, piece, PIECE, words[3]), filled = 0;
    piece[filled++] = codes[(mixed(first, second, at) >> 4) + 2048];
  }
  put_all(file, piece, filled, words[3]);
  if (frames % 2) put_all(file, (const uint8_t *)"", 1, words[3]);
  if (close(file) < 0) fail(words[3]);
  return 0;
}
