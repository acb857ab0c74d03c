/* The table of commands, with what `--help` says of each. */
#include "commands.h"

#include <string.h>

const char overview[] =
    "usage: tfnode COMMAND FILE ...\n"
    "\n"
    "A Trianglefire node in a file: see its storage without firmware around it.\n"
    "\n"
    "  new       make an image of an empty node\n"
    "  info      geometry, sizes, and what is used\n"
    "  settings  the record that says its geometry years later\n"
    "  check     whether the node is sound, and if not, a hint where\n"
    "  write     write one page from standard input\n"
    "  read      read one page to standard output\n"
    "  load      write many pages from standard input\n"
    "  dump      read many pages to standard output\n"
    "  replay    serve a trace of requests and say what it cost\n"
    "  map       a picture of every block\n"
    "  upgrade   bring an image of an older layout to the newest\n"
    "\n"
    "`tfnode COMMAND --help` says more of each.  A command that changes the image\n"
    "replaces it whole or leaves it as it was; the others never change it.\n"
    "Exit status: 0 done, 1 damaged or never written, 2 wrong use, 3 file trouble.\n";

static const char help_new[] =
    "usage: tfnode new FILE --geometry P,W,D,T,L,C [--json]\n"
    "       tfnode new FILE --preset small|recorder|largest [--json]\n"
    "       tfnode new FILE --settings IN [--json]\n"
    "\n"
    "Makes FILE, which must not exist, an image of an empty node: P pages in a\n"
    "block, W words in a page, D data and T translation blocks, L logical pages,\n"
    "C cache entries.  With --settings these are the numbers of the settings record\n"
    "in the file IN, of up to 1048576 bytes; fields of higher tags after them are\n"
    "skipped.  A record that is refused is told by the refusal's number and place.\n"
    "\n"
    "example: tfnode new node.img --geometry 2,2,3,3,3,1\n";

static const char help_info[] =
    "usage: tfnode info FILE [--json]\n"
    "\n"
    "Prints the geometry, the sizes, how many blocks are erased and full, how many\n"
    "pages are written, and how much of the cache is used.\n"
    "\n"
    "example: tfnode info node.img --json | jq .written\n";

static const char help_settings[] =
    "usage: tfnode settings FILE [--json] [--write OUT]\n"
    "\n"
    "Shows the settings record of a node, the 36 bytes that say its geometry to\n"
    "whoever opens it years later.  FILE is an image, or a settings record itself.\n"
    "With --write the 36 bytes also go to the file OUT, which must not exist, so\n"
    "that no record is lost.  Keep it outside the node's chip; `tfnode new\n"
    "--settings` makes an empty node of it.\n"
    "\n"
    "example: tfnode settings node.img --write node.settings\n";

static const char help_check[] =
    "usage: tfnode check FILE [--json]\n"
    "\n"
    "Says whether the node is sound.  If it is damaged the exit status is 1, and a\n"
    "hint names the first of the seven rules that fails, and where.\n"
    "\n"
    "example: tfnode check node.img && echo fit for sea\n";

static const char help_write[] =
    "usage: tfnode write FILE PAGE [--json] < data\n"
    "\n"
    "Writes logical page PAGE.  Data shorter than a page is filled up with zero\n"
    "bytes, longer data is cut off, and either is said.\n"
    "\n"
    "example: echo 'shot 7, line 1042' | tfnode write node.img 3\n";

static const char help_read[] =
    "usage: tfnode read FILE PAGE > data\n"
    "\n"
    "Reads logical page PAGE, all of its bytes.  If it was never written nothing is\n"
    "printed and the exit status is 1.  The image stays as it is.\n"
    "\n"
    "example: tfnode read node.img 3 | hexdump -C\n";

static const char help_load[] =
    "usage: tfnode load FILE FIRST [--json] < data\n"
    "\n"
    "Writes logical pages from FIRST on until the data ends; the last is filled up\n"
    "with zero bytes.  All of them are written or none: the image is replaced once,\n"
    "at the end.\n"
    "\n"
    "example: tfnode load node.img 0 < survey.bin\n";

static const char help_dump[] =
    "usage: tfnode dump FILE FIRST COUNT > data\n"
    "\n"
    "Reads COUNT logical pages from FIRST on.  Pages that were never written are\n"
    "given as FF bytes, and how many is said.  The image stays as it is.\n"
    "\n"
    "example: tfnode dump node.img 0 40 > survey.bin\n";

static const char help_replay[] =
    "usage: tfnode replay FILE [--json | --lines] < trace\n"
    "\n"
    "Serves the requests of a trace, a line each: `W page value` writes the value to\n"
    "every word of the page, `R page` reads it.  Blank lines and lines that begin\n"
    "with # are left out.  Prints what the flash did, and the write amplification.\n"
    "With --lines it prints for each request the answer, reads, programs, erases\n"
    "and, for a read, the first word.  The whole trace is kept or nothing of it.\n"
    "\n"
    "example: printf 'W 0 10\\nR 0\\n' | tfnode replay node.img\n";

static const char help_map[] =
    "usage: tfnode map FILE [--json | --svg OUT]\n"
    "\n"
    "Shows every page of every block: # valid, x invalid, . erased, and > before an\n"
    "open block; in colour on a terminal, unless NO_COLOR is set.  With --svg the\n"
    "picture goes to the file OUT.\n"
    "\n"
    "example: tfnode map node.img --svg node.svg\n";

static const char help_upgrade[] =
    "usage: tfnode upgrade FILE [--json]\n"
    "\n"
    "Makes an image of an older layout one of the newest, which every other command\n"
    "asks for.  Words are only added, so nothing of the node is lost, and it is as\n"
    "sound or as damaged as before.  An image of the newest layout is left alone.\n"
    "An older tfnode does not open the new image; keep a copy if you need one.\n"
    "\n"
    "example: tfnode upgrade node.img && tfnode check node.img\n";

static const struct command commands[] = {
    {"new", {"FILE"}, OPTION_JSON | OPTION_GEOMETRY | OPTION_PRESET | OPTION_SETTINGS, command_new,
     help_new},
    {"info", {"FILE"}, OPTION_JSON, command_info, help_info},
    {"settings", {"FILE"}, OPTION_JSON | OPTION_WRITE, command_settings, help_settings},
    {"check", {"FILE"}, OPTION_JSON, command_check, help_check},
    {"write", {"FILE", "PAGE"}, OPTION_JSON, command_write, help_write},
    {"read", {"FILE", "PAGE"}, 0, command_read, help_read},
    {"load", {"FILE", "FIRST"}, OPTION_JSON, command_load, help_load},
    {"dump", {"FILE", "FIRST", "COUNT"}, 0, command_dump, help_dump},
    {"replay", {"FILE"}, OPTION_JSON | OPTION_LINES, command_replay, help_replay},
    {"map", {"FILE"}, OPTION_JSON | OPTION_SVG, command_map, help_map},
    {"upgrade", {"FILE"}, OPTION_JSON, command_upgrade, help_upgrade},
};

const struct command *find_command(const char *name)
{
    for (size_t i = 0; i < sizeof commands / sizeof *commands; i++)
        if (strcmp(commands[i].name, name) == 0)
            return &commands[i];
    return NULL;
}
