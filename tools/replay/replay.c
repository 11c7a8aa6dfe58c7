/*
 * Replays a recorded session: makes the calls of its blocks on a new hub and
 * prints each with its answer, then a tally of the start-splits.  The library
 * replays; docs/CALLS.md lays down what is read and printed, docs/REPLAY.md
 * has the words and examples.
 */

#include <errno.h>
#include <stdio.h>
#include <string.h>

#include "../words/complain.h"
#include "../words/files.h"
#include "../words/names.h"
#include "block_text.h"
#include "hub_numbers.h"
#include "tally.h"

enum { REPLAYED, NOT_REPLAYED, BAD_WORDS }; /* exit statuses */

enum {
    FILE_BUFFER = 1 << 18,
    PROGRESS_BLOCKS = 1000
};

typedef struct {
    int raw;
    int progress;
    int help;
} options;

typedef struct {
    uint8_t area[GRIMHOLDI_AREA_LENGTH_MAX];
    size_t area_len;
    tally counted;
    uint8_t block[GRIMHOLDI_BLOCK_LENGTH];
    size_t block_len;
    int read_error; /* errno, or 0 */
    uint8_t answers[GRIMHOLDI_ANSWERS_LENGTH];
} session;

const char program_name[] = "replay";

static void print_help(void)
{
    printf("replay [OPTIONS] [FILE] %s\n"
           "  Makes the calls recorded in FILE (none or -: standard input)\n"
           "  on a new hub with these numbers.  Prints each call with its\n"
           "  answer, then a tally of the start-splits.  Options come\n"
           "  first.\n\n"
           "  --raw       the bytes of the answers and nothing else; the\n"
           "              tally goes to standard error\n"
           "  --progress  a line on standard error every %d blocks\n"
           "  --help      this text\n\n"
           "Numbers, decimal or 0x and hex digits:\n",
           hub_number_words, PROGRESS_BLOCKS);
    print_hub_numbers();
    printf("\n"
           "Exit status: 0 replayed, 1 a block is refused, or a file is not\n"
           "read or written, 2 bad words or numbers.\n");
}

/* Moves past the options; 0 and a complaint where one is bad. */
static int read_options(char ***words, options *read)
{
    char **word = *words;

    for (; *word != NULL && word[0][0] == '-' && word[0][1] != '\0'; word++)
        if (strcmp(*word, "--raw") == 0)
            read->raw = 1;
        else if (strcmp(*word, "--progress") == 0)
            read->progress = 1;
        else if (strcmp(*word, "--help") == 0)
            read->help = 1;
        else
            return complain(0, "'%s' is no option; options are --raw, "
                            "--progress, --help", *word);
    *words = word;
    return 1;
}

/* The place of the block that comes next. */
static uint32_t next_place(const session *of)
{
    return (uint32_t)of->counted.blocks + 1;
}

/* 0 at the end of the recording, and where it can't be read. */
static int read_block(session *of, FILE *file)
{
    if (!read_input(file, of->block, sizeof of->block, &of->block_len))
        of->read_error = errno;
    return of->read_error == 0 && of->block_len > 0;
}

/* `live`: the lines of a block don't wait for the next one. */
static void write_answers(const session *of, size_t length, int raw, int live)
{
    if (raw)
        fwrite(of->answers, 1, length, stdout);
    else
        print_block(next_place(of), of->block, of->answers);
    if (live && !raw)
        fflush(stdout);
}

/*
 * Replays block after block, up to the first that is refused or can't be read.
 * `last` is what became of the last one.  0 and a complaint where the answers
 * can't be written.
 */
static int replay_blocks(session *of, FILE *file, const options *as,
                         grimholdi_replayed *last)
{
    int live = fseek(file, 0, SEEK_CUR) != 0; /* no regular file */

    while (read_block(of, file)) {
        *last = grimholdi_replay_block(of->area, of->area_len, next_place(of),
                                       of->block, of->block_len, of->answers,
                                       sizeof of->answers);
        if (last->number != GRIMHOLDI_ANSWER_DONE
            || last->refusal != GRIMHOLDI_REFUSED_NOT)
            return 1;
        write_answers(of, last->length, as->raw, live);
        if (ferror(stdout))
            return output_is_written();
        tally_add(&of->counted, last);
        if (as->progress && of->counted.blocks % PROGRESS_BLOCKS == 0)
            fprintf(stderr, "%lu blocks\n", of->counted.blocks);
    }
    return 1;
}

/* The tally, and what is wrong with the block behind those replayed. */
static int finish(const session *of, const char *name, int raw,
                  const grimholdi_replayed *last)
{
    unsigned long place = next_place(of);
    char fault[FAULT_LENGTH];

    if (raw && !output_is_written())
        return NOT_REPLAYED;
    print_tally(raw ? stderr : stdout, &of->counted);
    if (!output_is_written())
        return NOT_REPLAYED;
    if (of->read_error != 0)
        return complain(NOT_REPLAYED, "%s: block %lu can't be read: %s", name,
                        place, strerror(of->read_error));
    if (last->number != GRIMHOLDI_ANSWER_DONE)
        return complain(NOT_REPLAYED, "%s: block %lu: the library answers %s",
                        name, place, grimholdi_answer_name(last->number));
    if (last->refusal == GRIMHOLDI_REFUSED_NOT)
        return ferror(stderr) ? NOT_REPLAYED : REPLAYED;
    block_fault(last->refusal, (uint32_t)place, of->block, of->block_len,
                fault);
    return complain(NOT_REPLAYED, "%s: block %lu is refused, %s", name, place,
                    fault);
}

static int replay_file(session *of, const char *name, const options *as)
{
    static char in[FILE_BUFFER];
    grimholdi_replayed last = {0};
    FILE *file = open_input(&name);
    int is_written;

    if (file == NULL)
        return NOT_REPLAYED;
    setvbuf(file, in, _IOFBF, sizeof in);
    is_written = replay_blocks(of, file, as, &last);
    close_input(file);
    return is_written ? finish(of, name, as->raw, &last) : NOT_REPLAYED;
}

#define THE_WORDS_ARE "; the words are [FILE] %s"

/* `words` is the file, if there is one, and the five numbers. */
static int run(char **words, const options *as)
{
    static session of;
    uint32_t numbers[HUB_NUMBERS];
    char fault[FAULT_LENGTH];
    const char *name = "-";
    size_t count = 0;

    while (words[count] != NULL)
        count++;
    if (count < HUB_NUMBERS)
        return complain(BAD_WORDS, "five numbers are needed, %s; replay "
                        "--help says more", hub_number_words);
    if (count > HUB_NUMBERS + 1)
        return complain(BAD_WORDS, "'%s' is too much" THE_WORDS_ARE,
                        words[HUB_NUMBERS + 1], hub_number_words);
    if (count > HUB_NUMBERS)
        name = *words++;
    if (!read_hub_numbers(words, numbers, fault))
        return complain(BAD_WORDS, "%s" THE_WORDS_ARE, fault,
                        hub_number_words);
    of.area_len = make_hub(numbers, of.area, fault);
    if (of.area_len == 0)
        return complain(BAD_WORDS, "%s", fault);
    return replay_file(&of, name, as);
}

int main(int argc, char **argv)
{
    options as = {0, 0, 0};
    char **words = argv + (argc > 0);

    if (!read_options(&words, &as))
        return BAD_WORDS;
    if (!as.help)
        return run(words, &as);
    print_help();
    return output_is_written() ? REPLAYED : NOT_REPLAYED;
}
