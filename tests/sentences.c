/* sentences.c: a C host that asks for the sentence of every refusal. Exits 1 where one is missing or serves two. */
#include "host.h"
#include "ladlespindle_refusals.h"

/* A sentence tells what is wrong, a colon and what to do, on one line. */
static int tells(const char *sentence)
{
    const char *colon = strchr(sentence, ':');
    return colon && strlen(sentence) < 160 && colon - sentence > 7 && strlen(colon) > 10 && !strchr(sentence, '\n');
}

int main(void)
{
    static const uint32_t strange[] = {LADLESPINDLE_STAGE + 1, LADLESPINDLE_WAV + 1, 255, 256, 65536, 2147483648u, 4294967295u};
    const char *unknown = ladlespindle_sentence(strange[0]);
    for (uint32_t number = 0; number <= LADLESPINDLE_WAV; number++) {
        if (number == strange[0]) continue;
        const char *sentence = ladlespindle_sentence(number);
        check_at(tells(sentence), "a sentence", number, "what is wrong, and what to do");
        check_at(strcmp(sentence, unknown) != 0, "a sentence", number, "not that of an unknown number");
        for (uint32_t other = 0; other < number; other++)
            check_at(strcmp(sentence, ladlespindle_sentence(other)) != 0, "a sentence", number, "not that of another number");
        for (size_t place = 0; place < 8; place++) {
            int named = number == LADLESPINDLE_LENGTH && place <= 4;
            check_at((ladlespindle_place(number, place)[0] != 0) == named, "a place", place, "a buffer exactly for places 0 to 4 of number 8");
        }
    }
    for (size_t i = 0; i < sizeof strange / sizeof *strange; i++)
        check_at(tells(unknown) && strcmp(ladlespindle_sentence(strange[i]), unknown) == 0, "an unknown number", strange[i], "one sentence for all");
    check(ladlespindle_place(LADLESPINDLE_LENGTH, SIZE_MAX)[0] == 0, "the largest place", "no buffer");
    check(strcmp(ladlespindle_place(LADLESPINDLE_LENGTH, 3), "(stage twiddles)") == 0, "place 3", "the stage twiddles");
    return ended("sentences");
}
