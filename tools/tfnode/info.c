/* tfnode info: geometry, sizes, and what is used of a node. */
#include "commands.h"
#include "image.h"
#include "report.h"
#include "survey.h"

#include <inttypes.h>
#include <stdio.h>

static const char *const slice_names[SLICES] = {"chip", "spare", "directory", "cache", "record"};

/* What is used of a node. */
struct use {
    struct survey regions[REGIONS];
    uint32_t used, changed; /* cache entries in use, and those that flash does not have yet */
    uint32_t protected;     /* entries that are, as the record has it */
};

static void find_use(const struct node *node, struct use *use)
{
    for (int region = 0; region < REGIONS; region++)
        survey_region(node, (enum region)region, &use->regions[region]);
    use->used = node->slices[RECORD][TF_RECORD_USED];
    if (use->used > number(node, C))
        use->used = number(node, C);
    use->protected = node->slices[RECORD][TF_RECORD_PROTECTED];
    use->changed = 0;
    for (size_t rank = 0; rank < use->used; rank++)
        use->changed += node->slices[CACHE][rank * TF_WORDS_IN_ENTRY + TF_ENTRY_CHANGED] == 1;
}

static void print_region(const char *name, const struct survey *survey)
{
    printf("%-13s", name);
    print_number(survey->blocks, "block", "blocks");
    printf(": %" PRIu32 " wholly erased, %" PRIu32 " full, block %" PRIu32 " open\n",
           survey->erased, survey->full, survey->open);
    printf("%-13s%" PRIu32 " valid pages, %" PRIu32 " invalid, %" PRIu32 " erased", "",
           survey->pages[PAGE_VALID], survey->pages[PAGE_INVALID], survey->pages[PAGE_ERASED]);
    if (survey->pages[PAGE_UNKNOWN] > 0)
        printf(", %" PRIu32 " in no known state", survey->pages[PAGE_UNKNOWN]);
    putchar('\n');
}

static void print_info(const struct image *image, const struct use *use, bool sound)
{
    const struct node *node = &image->node;
    printf("image        %s, version %" PRIu32 ", %" PRIu64 " bytes\n", image->path,
           image->layout, image->bytes);
    printf("state        %s\n", sound ? "sound" : "damaged; `tfnode check` says why");
    printf("geometry     ");
    print_geometry(&node->geometry, false);
    printf("\npages        %" PRIu32 " logical pages of %" PRIu32 " words, %" PRIu32 " written\n",
           number(node, L), number(node, W), use->regions[DATA].pages[PAGE_VALID]);
    for (int region = 0; region < REGIONS; region++)
        print_region(region_names[region], &use->regions[region]);
    printf("cache        %" PRIu32 " of %" PRIu32 " entries used, %" PRIu32 " protected, %" PRIu32
           " changed\n", use->used, number(node, C), use->protected, use->changed);
    printf("words        ");
    for (int slice = 0; slice < SLICES; slice++)
        printf("%s%s %zu", slice == 0 ? "" : ", ", slice_names[slice], node->words[slice]);
    putchar('\n');
}

static void print_region_json(const char *name, const struct survey *survey)
{
    printf("\"%s\": {\"blocks\": %" PRIu32 ", \"erased\": %" PRIu32 ", \"full\": %" PRIu32
           ", \"open\": %" PRIu32 ", \"pages\": {\"valid\": %" PRIu32 ", \"invalid\": %" PRIu32
           ", \"erased\": %" PRIu32 ", \"unknown\": %" PRIu32 "}}, ",
           name, survey->blocks, survey->erased, survey->full, survey->open,
           survey->pages[PAGE_VALID], survey->pages[PAGE_INVALID], survey->pages[PAGE_ERASED],
           survey->pages[PAGE_UNKNOWN]);
}

static void print_info_json(const struct image *image, const struct use *use, bool sound)
{
    const struct node *node = &image->node;
    printf("{\"version\": %" PRIu32 ", \"bytes\": %" PRIu64 ", \"sound\": %s, \"geometry\": {",
           image->layout, image->bytes, sound ? "true" : "false");
    print_geometry(&node->geometry, true);
    printf("}, \"written\": %" PRIu32 ", ", use->regions[DATA].pages[PAGE_VALID]);
    for (int region = 0; region < REGIONS; region++)
        print_region_json(region_names[region], &use->regions[region]);
    printf("\"cache\": {\"entries\": %" PRIu32 ", \"used\": %" PRIu32 ", \"protected\": %" PRIu32
           ", \"changed\": %" PRIu32 "}, \"words\": {", number(node, C), use->used, use->protected,
           use->changed);
    for (int slice = 0; slice < SLICES; slice++)
        printf("%s\"%s\": %zu", slice == 0 ? "" : ", ", slice_names[slice], node->words[slice]);
    puts("}}");
}

enum status command_info(const struct arguments *arguments)
{
    struct image image;
    struct use use;
    image_open(&image, arguments->operands[0], LOOK);
    uint32_t reply = node_check(&image.node);
    if (reply != TF_DONE && reply != TF_DAMAGED)
        fail_refused(reply, image.path);
    find_use(&image.node, &use);
    (given(arguments, OPTION_JSON) ? print_info_json : print_info)(&image, &use, reply == TF_DONE);
    return STATUS_DONE;
}
