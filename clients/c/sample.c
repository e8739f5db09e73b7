/* Partitions TP0 and TP1 by 32 collisions in a row and reads what the HIMIB tells of it.
 *
 *     cc -std=c99 -o sample clients/c/sample.c && ./sample        from the repository's top
 */
#include "roverivet.h"

#include <stdlib.h>

static struct roverivet chip;

static struct roverivet_answer ask(const unsigned char record[ROVERIVET_SIZE])
{
    struct roverivet_answer answer;
    if (roverivet_ask(&chip, record, &answer)) {
        fprintf(stderr, "sample: the program has ended\n");
        exit(3);
    }
    return answer;
}

static void show_counter(const char *name, unsigned p, unsigned r)
{
    uint32_t value;
    int refused = roverivet_counter(&chip, p, r, &value);
    if (refused)
        printf("%s: refused %d\n", name, refused);
    else
        printf("%s: %lu\n", name, (unsigned long)value);
}

static void show_attribute(const char *name, unsigned r)
{
    uint32_t values[9] = {0};
    int refused = roverivet_attribute(&chip, r, values);
    if (refused) {
        printf("%s: refused %d\n", name, refused);
        return;
    }
    printf("%s:", name);
    for (int port = 0; port < 9; port++)
        printf(" %lu", (unsigned long)values[port]);
    printf("\n");
}

int main(void)
{
    unsigned char record[ROVERIVET_SIZE], changes = 0;
    struct roverivet_answer answer;
    if (roverivet_open(&chip, NULL, NULL, ROVERIVET_SHORT_LIMIT)) {
        perror("sample");
        return 3;
    }
    roverivet_pulse(record, ROVERIVET_TP(0) | ROVERIVET_TP(1));
    for (int pulse = 0; pulse < 4; pulse++)
        ask(record);
    roverivet_burst(record, ROVERIVET_TP(0), 1000, 64);
    answer = ask(record);
    printf("a frame on TP0: %s %03x\n", answer.word, answer.value);
    roverivet_burst(record, ROVERIVET_TP(0) | ROVERIVET_TP(1), 600, 0);
    roverivet_collision(record, 100, 300);
    for (int burst = 0; burst < 32; burst++)
        answer = ask(record);
    printf("the last collision: %s %03x\n", answer.word, answer.value);
    show_counter("Readable Frames of TP0", 16, 0);
    show_counter("Collisions of TP0", 16, 7);
    show_counter("Auto Partitions of TP1", 17, 11);
    show_attribute("Collisions of all ports", 7);
    show_counter("Transmit Collisions", 0, 12);
    show_counter("P 0 R 0", 0, 0);
    if (roverivet_read(&chip, 1, 0, &changes, 1) == 0)
        printf("TP partition change: %02x\n", changes);
    return roverivet_close(&chip);
}
