/* Opening, creating and replacing an image file. */
#include "image.h"

#include "beside.h"
#include "layout.h"
#include "say.h"
#include "words.h"

#include <errno.h>
#include <fcntl.h>
#include <inttypes.h>
#include <signal.h>
#include <stdlib.h>
#include <string.h>
#include <sys/mman.h>
#include <unistd.h>

static const char mark[] = "TFNODE\r\n";

enum {
    MARK_BYTES = sizeof mark - 1,
    AT_VERSION = MARK_BYTES / BYTES_IN_WORD,
    AT_HEADER_WORDS,
    AT_NUMBERS,
    AT_SLICES = AT_NUMBERS + 1 + NUMBERS,
    HEADER_WORDS = AT_SLICES + 1 + SLICES,
    HEADER_BYTES = HEADER_WORDS * BYTES_IN_WORD
};

static uint64_t image_bytes(const size_t words[SLICES])
{
    uint64_t sum = HEADER_WORDS;
    for (int slice = 0; slice < SLICES; slice++)
        sum += words[slice];
    return sum * BYTES_IN_WORD;
}

static void place_slices(struct node *node, uint32_t *words)
{
    for (int slice = 0; slice < SLICES; slice++) {
        node->slices[slice] = words;
        words += node->words[slice];
    }
}

_Noreturn static void fail_open(const char *path)
{
    if (errno == ENOENT)
        fail(STATUS_FILE, "%s does not exist; make a node by `tfnode new`", path);
    fail(STATUS_FILE, "cannot open %s: %s; see that it may be read", path, strerror(errno));
}

/* The header up to the geometry: whose file it is, and whether this tool knows its layout. */
static void take_geometry(struct image *image, const uint32_t header[HEADER_WORDS])
{
    const char *path = image->path;
    image->layout = header[AT_VERSION];
    if (image->layout > NEWEST_LAYOUT)
        fail(STATUS_FILE, "%s is of a newer layout, version %" PRIu32 ", and this tfnode knows "
             "those up to version %d; use a newer tfnode", path, image->layout, NEWEST_LAYOUT);
    if (image->layout < OLDEST_LAYOUT)
        fail(STATUS_FILE, "%s has a damaged header: there is no version %" PRIu32 "; use a copy",
             path, image->layout);
    if (header[AT_HEADER_WORDS] != HEADER_WORDS || header[AT_NUMBERS] != NUMBERS ||
        header[AT_SLICES] != SLICES)
        fail(STATUS_FILE, "%s has a damaged header: it is not laid out as version %" PRIu32
             "; use a copy", path, image->layout);
    memcpy(image->node.geometry.numbers, header + AT_NUMBERS + 1,
           sizeof image->node.geometry.numbers);
    if (!geometry_accepted(&image->node.geometry))
        fail(STATUS_FILE, "%s has a damaged header: its geometry is not accepted; use a copy",
             path);
}

/* The rest of it: that the sizes are those of the geometry, and the file's own. */
static void take_sizes(struct image *image, const uint32_t header[HEADER_WORDS])
{
    layout_sizes(image->layout, &image->node.geometry, image->node.words);
    for (int slice = 0; slice < SLICES; slice++)
        if (header[AT_SLICES + 1 + slice] != image->node.words[slice])
            fail(STATUS_FILE, "%s has a damaged header: its sizes are not those of its geometry; "
                 "use a copy", image->path);
    if (image->bytes != image_bytes(image->node.words))
        fail(STATUS_FILE, "%s has %" PRIu64 " bytes, and its header says %" PRIu64
             "; it was cut or added to, use a whole copy", image->path, image->bytes,
             image_bytes(image->node.words));
}

bool image_marked(const unsigned char *bytes, size_t n)
{
    return n >= MARK_BYTES && memcmp(bytes, mark, MARK_BYTES) == 0;
}

static void take_header(struct image *image, int fd)
{
    unsigned char bytes[HEADER_BYTES] = {0};
    uint32_t header[HEADER_WORDS];
    ssize_t got = pread(fd, bytes, sizeof bytes, 0);
    if (got < 0)
        fail_open(image->path);
    if (!image_marked(bytes, (size_t)got))
        fail(STATUS_FILE, "%s is no node image: it lacks the mark of one; name another file",
             image->path);
    if ((size_t)got < sizeof bytes)
        fail(STATUS_FILE, "%s ends within its header; it was cut, use a whole copy", image->path);
    words_from_bytes(header, bytes, HEADER_WORDS);
    take_geometry(image, header);
    take_sizes(image, header);
}

/* A mapped file that cannot be read, or was cut by another program meanwhile, ends here. */
_Noreturn static void on_bus_error(int signal_number)
{
    static const char line[] = "tfnode: the image could not be read to its end: the medium failed, "
                               "or another program cut it; use a copy\n";
    (void)signal_number;
    ssize_t written = write(STDERR_FILENO, line, sizeof line - 1);
    (void)written;
    _exit(STATUS_FILE);
}

static bool host_is_little_endian(void)
{
    const uint32_t one = 1;
    unsigned char first;
    memcpy(&first, &one, sizeof first);
    return first == 1;
}

/* The bytes of the file as words of this host.  A little-endian host has them as they are. */
static void map_slices(struct image *image, int fd)
{
    size_t words = (size_t)image->bytes / BYTES_IN_WORD - HEADER_WORDS;
    unsigned char *bytes =
        mmap(NULL, (size_t)image->bytes, PROT_READ | PROT_WRITE, MAP_PRIVATE, fd, 0);
    if (bytes == MAP_FAILED)
        fail(STATUS_FILE, "cannot map %s: %s; see that there is memory for it", image->path,
             strerror(errno));
    signal(SIGBUS, on_bus_error);
    uint32_t *first = (uint32_t *)(void *)(bytes + HEADER_BYTES);
    if (!host_is_little_endian())
        words_from_bytes(first, bytes + HEADER_BYTES, words);
    place_slices(&image->node, first);
}

/* Takes the lock before the image is opened, so that the image is the latest. */
static void lock_for_change(const char *path)
{
    struct stat file;
    char *real = realpath(path, NULL);
    if (real == NULL || stat(real, &file) != 0)
        fail_open(path);
    /* Root may write to anything, but a file without write permission is meant to stay. */
    if ((file.st_mode & 0222) == 0 || access(real, W_OK) != 0)
        fail(STATUS_FILE, "%s is read-only; allow it by `chmod u+w` or work on a copy", path);
    beside_begin(real);
    free(real);
}

void image_open_any_layout(struct image *image, const char *path, enum purpose purpose)
{
    image->path = path;
    if (purpose == CHANGE)
        lock_for_change(path);
    /* Without O_NONBLOCK a named pipe would wait for a writer. */
    int fd = open(path, O_RDONLY | O_NONBLOCK | O_CLOEXEC);
    if (fd < 0 || fstat(fd, &image->file) != 0)
        fail_open(path);
    if (!S_ISREG(image->file.st_mode))
        fail(STATUS_FILE, "%s is no node image: it is no plain file; name another", path);
    image->on_disk = true;
    image->bytes = (uint64_t)image->file.st_size;
    take_header(image, fd);
    map_slices(image, fd);
    close(fd);
}

void image_open(struct image *image, const char *path, enum purpose purpose)
{
    image_open_any_layout(image, path, purpose);
    if (image->layout < NEWEST_LAYOUT)
        fail(STATUS_FILE, "%s is of an older layout, version %" PRIu32 ", and this tfnode works on "
             "version %d; run `tfnode upgrade %s`", path, image->layout, NEWEST_LAYOUT, path);
}

void image_upgrade(struct image *image)
{
    while (image->layout < NEWEST_LAYOUT)
        layout_step(&image->node, ++image->layout);
    image->bytes = image_bytes(image->node.words);
}

void image_create(struct image *image, const char *path, const struct geometry *geometry)
{
    image->path = path;
    image->layout = NEWEST_LAYOUT;
    image->on_disk = false;
    image->node.geometry = *geometry;
    slice_sizes(geometry, image->node.words);
    image->bytes = image_bytes(image->node.words);
    beside_begin_new(path);
    uint32_t *words = mmap(NULL, (size_t)image->bytes, PROT_READ | PROT_WRITE,
                           MAP_PRIVATE | MAP_ANONYMOUS, -1, 0);
    if (words == MAP_FAILED)
        fail(STATUS_FILE, "no memory left for the %" PRIu64 " bytes of %s; use a smaller geometry",
             image->bytes, path);
    place_slices(&image->node, words);
}

static void write_words(const uint32_t *words, size_t n)
{
    enum { AT_ONCE = 16384 };
    static unsigned char bytes[AT_ONCE * BYTES_IN_WORD];
    while (n > 0) {
        size_t now = n < AT_ONCE ? n : AT_ONCE;
        bytes_from_words(bytes, words, now);
        beside_write(bytes, now * BYTES_IN_WORD);
        words += now;
        n -= now;
    }
}

void image_commit(const struct image *image)
{
    uint32_t header[HEADER_WORDS] = {0};
    header[AT_VERSION] = image->layout;
    header[AT_HEADER_WORDS] = HEADER_WORDS;
    header[AT_NUMBERS] = NUMBERS;
    memcpy(header + AT_NUMBERS + 1, image->node.geometry.numbers,
           sizeof image->node.geometry.numbers);
    header[AT_SLICES] = SLICES;
    for (int slice = 0; slice < SLICES; slice++)
        header[AT_SLICES + 1 + slice] = (uint32_t)image->node.words[slice];
    beside_write(mark, MARK_BYTES);
    write_words(header + AT_VERSION, HEADER_WORDS - AT_VERSION);
    for (int slice = 0; slice < SLICES; slice++)
        write_words(image->node.slices[slice], image->node.words[slice]);
    beside_commit(image->on_disk ? &image->file : NULL);
}
