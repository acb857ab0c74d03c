/*
 * tfnode check: whether the state is sound.  That is the library's answer; which rule fails first,
 * and where, it does not say.  The independent program of tests/independent reads that from the
 * same words, and its reading is given as a hint.
 */
#include "commands.h"
#include "image.h"
#include "independent.h"

#include <inttypes.h>
#include <stdio.h>

/* By rule: what its place counts, and what the rule asks. */
static const struct {
    const char *at, *asks;
} rules[] = {
    {"page", "a page has one of the three states; an erased one has no owner and only erased "
             "words, any other an owner within the limit"},
    {"page", "no two valid pages of a region have the same owner"},
    {"block", "an open block is programmed up to its offset, any other wholly or not at all, and "
              "each region has an erased block besides its open one"},
    {"translation page", "the directory names the valid page of each translation page"},
    {"cache entry", "at most C entries are used, of different logical pages within the limit, and "
                    "the others are empty; at most C/2, and no more than are used, are protected"},
    {"logical page", "the cache or the map names the valid page of each logical page"},
    {"cache entry", "an unchanged entry is as the map on flash has it"},
};

/* The first rule that fails, as the independent program reads the state; 0 if it finds none. */
static int first_broken_rule(const struct node *node, uint32_t *where)
{
    const uint32_t *n = node->geometry.numbers;
    uint32_t *const *s = node->slices;
    const size_t *words = node->words;
    return ind_first_broken_rule(n[P], n[W], n[D], n[T], n[L], n[C], s[CHIP], words[CHIP], s[SPARE],
                                 words[SPARE], s[DIRECTORY], words[DIRECTORY], s[CACHE],
                                 words[CACHE], s[RECORD], words[RECORD], where);
}

/* Where it fails, for a person: a number, and what that counts. */
struct place {
    const char *at;
    uint32_t number;
};

static struct place place_of(const struct node *node, int rule, uint32_t where)
{
    struct place place = {rules[rule - 1].at, where};
    /* No entry has rank C: there the record's number of used or of protected entries is meant. */
    if (rule == 5 && where == number(node, C)) {
        bool used = node->slices[RECORD][TF_RECORD_USED] > number(node, C);
        place.at = "record word";
        place.number = used ? TF_RECORD_USED : TF_RECORD_PROTECTED;
    }
    return place;
}

static void print_hint(const struct node *node, bool json)
{
    uint32_t where = 0;
    int rule = first_broken_rule(node, &where);
    if (rule < 1) {
        printf(json ? ", \"hint\": null" : "hint: the independent program finds no broken rule; "
                                           "please report it\n");
        return;
    }
    struct place place = place_of(node, rule, where);
    if (json)
        printf(", \"hint\": {\"rule\": %d, \"at\": \"%s\", \"number\": %" PRIu32 "}", rule,
               place.at, place.number);
    else
        printf("hint: rule %d fails first, at %s %" PRIu32 ": %s\n", rule, place.at, place.number,
               rules[rule - 1].asks);
}

enum status command_check(const struct arguments *arguments)
{
    bool json = given(arguments, OPTION_JSON);
    struct image image;
    image_open(&image, arguments->operands[0], LOOK);
    uint32_t reply = node_check(&image.node);
    if (reply != TF_DONE && reply != TF_DAMAGED)
        fail_refused(reply, image.path);
    bool sound = reply == TF_DONE;
    if (json)
        printf("{\"reply\": %" PRIu32 ", \"name\": \"%s\", \"sound\": %s", reply, reply_name(reply),
               sound ? "true" : "false");
    else
        printf("%s is %s\n", image.path, sound ? "sound: all seven rules hold" : "damaged");
    if (!sound)
        print_hint(&image.node, json);
    if (json)
        puts("}");
    return sound ? STATUS_DONE : STATUS_ANSWER;
}
