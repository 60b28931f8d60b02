/* judge PLAN [STEPS]: judges a plan file through the linked library and writes what the judging program writes of it,
   the shown run cut after STEPS steps (20 where no number is given). */
#include "weftpillar.h"

#include <inttypes.h>
#include <stdio.h>
#include <stdlib.h>

static uint64_t big_endian(const uint8_t *bytes, size_t length) {
    uint64_t number = 0;
    for (size_t i = 0; i < length; i++) {
        number = number << 8 | bytes[i];
    }
    return number;
}

static void write_verdict(uint8_t nodes, const uint8_t verdict[WEFTPILLAR_VERDICT_LENGTH]) {
    printf("CSP 1 nodes %u gap %" PRIu64 "\n", nodes, big_endian(verdict + 1, 2));
    for (int rule = 1; rule <= 3; rule++) {
        const uint8_t *sides = verdict + 3 + 16 * (rule - 1);
        uint64_t left = big_endian(sides, 8);
        uint64_t right = big_endian(sides + 8, 8);
        printf("rule %d %" PRIu64 " %" PRIu64 " %s\n", rule, left, right, left < right ? "holds" : "fails");
    }
    if (verdict[0] == 0) {
        printf("verdict in step\n");
    } else {
        printf("verdict rule %u\n", verdict[0]);
    }
}

/* The shown run from its beginning, at most `most` steps of it, and how it is out of step where it ends before. */
static int write_shown(const uint8_t *plan, size_t length, unsigned long most) {
    uint8_t place[WEFTPILLAR_PLACE_LENGTH];
    uint8_t step[WEFTPILLAR_STEP_LENGTH];
    uint8_t apart[WEFTPILLAR_APART_LENGTH];
    uint8_t answer = weftpillar_fresh_place(place, sizeof place);
    for (; answer == WEFTPILLAR_DONE && most > 0; most--) {
        answer = weftpillar_next(plan, length, place, sizeof place, step, sizeof step);
        if (answer == WEFTPILLAR_DONE) {
            printf("%c %" PRIu64 "\n", step[0], big_endian(step + 1, 4));
        }
    }
    if (answer == WEFTPILLAR_FINISHED) {
        answer = weftpillar_out_of_step(plan, length, place, WEFTPILLAR_RUN_LENGTH, apart, sizeof apart);
        if (answer == WEFTPILLAR_DONE && apart[0] == 1) {
            printf("out %" PRIu64 " %" PRIu64 "\n", big_endian(apart + 1, 4), big_endian(apart + 5, 4));
        }
    }
    return answer;
}

int main(int count, char **words) {
    if (count != 2 && count != 3) {
        fprintf(stderr, "usage: judge PLAN [STEPS]\n");
        return 2;
    }
    /* no plan has more than 85 bytes, and a longer file is refused by its length all the same */
    uint8_t plan[4096];
    FILE *file = fopen(words[1], "rb");
    if (file == NULL) {
        perror(words[1]);
        return 2;
    }
    size_t length = fread(plan, 1, sizeof plan, file);
    fclose(file);

    uint8_t verdict[WEFTPILLAR_VERDICT_LENGTH];
    uint8_t answer = weftpillar_judge(plan, length, verdict, sizeof verdict);
    if (answer != WEFTPILLAR_DONE) {
        printf("refused %u\n", answer);
        return 0;
    }
    write_verdict(plan[5], verdict);
    return write_shown(plan, length, count == 3 ? strtoul(words[2], NULL, 10) : 20);
}
