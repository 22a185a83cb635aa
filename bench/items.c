/* The calls that are measured on their own. */
#include "boards.h"

#include <stdio.h>
#include <stdlib.h>
#include <string.h>

enum { M = VSK_MACHINE_DOMAIN, S = VSK_SUPERVISOR_DOMAIN };
#define BIT(i) (1u << (i))

/* Sources 3 (Level1) and 13 (Edge1) are the machine domain's, 4, 6, 12 and 16 (not level) the child's. */
static const struct {
    const char *name;
    struct call call;
} calls[] = {
    {"reset", {{0}, RESET}},
    {"wire-same", {{13, 0}, WIRE}},
    {"wire-level", {{3, 1}, WIRE}},
    {"wire-sends", {{12, 1}, WIRE}},
    {"domain_read-setie", {{M, VSK_SETIE(0)}, DOMAIN_READ}},
    {"domain_read-in_clrip", {{M, VSK_IN_CLRIP(0)}, DOMAIN_READ}},
    {"domain_read-topi", {{M, VSK_TOPI(1)}, DOMAIN_READ}},
    {"domain_read-claimi", {{M, VSK_CLAIMI(1)}, DOMAIN_READ}},
    {"domain_write-setienum", {{M, VSK_SETIENUM, 13}, DOMAIN_WRITE}},
    {"domain_write-clrie", {{S, VSK_CLRIE(0), 0xFFFFFFFF}, DOMAIN_WRITE}},
    {"domain_write-sourcecfg", {{M, VSK_SOURCECFG(13), VSK_SOURCE_LEVEL0}, DOMAIN_WRITE}},
    {"domain_write-delegate", {{M, VSK_SOURCECFG(13), VSK_SOURCE_DELEGATED}, DOMAIN_WRITE}},
    {"domain_write-target", {{S, VSK_TARGET(12), VSK_TARGET_MESSAGE(2, 3, 77)}, DOMAIN_WRITE}},
    {"domain_write-setipnum-sends", {{S, VSK_SETIPNUM, 12}, DOMAIN_WRITE}},
    {"domain_write-setip-sends", {{S, VSK_SETIP(0), BIT(4) | BIT(6) | BIT(12) | BIT(16)}, DOMAIN_WRITE}},
    {"domain_write-genmsi", {{S, VSK_GENMSI, VSK_TARGET_MESSAGE(2, 0, 77)}, DOMAIN_WRITE}},
    {"domain_write-DM-to-direct", {{S, VSK_DOMAINCFG, VSK_DOMAINCFG_IE}, DOMAIN_WRITE}},
    {"domain_write-DM-to-messages", {{M, VSK_DOMAINCFG, VSK_DOMAINCFG_IE | VSK_DOMAINCFG_DM}, DOMAIN_WRITE}},
    {"domain_write-ithreshold", {{M, VSK_ITHRESHOLD(1), 5}, DOMAIN_WRITE}},
    {"page_read", {{1, 2, 0}, PAGE_READ}},
    {"page_write", {{1, 2, VSK_SETEIPNUM_LE, 100}, PAGE_WRITE}},
    {"register-read", {{1, 2, VSK_READ, VSK_EIP(1)}, REGISTER}},
    {"register-write", {{1, 2, VSK_WRITE, VSK_EIE(1), 0x1234}, REGISTER}},
    {"register-set", {{1, 2, VSK_SET, VSK_EIP(1), 0x1234}, REGISTER}},
    {"top-none", {{0, 2}, TOP}},
    {"top-found", {{1, 2}, TOP}},
    {"claim-none", {{0, 2}, CLAIM}},
    {"claim-found", {{1, 2}, CLAIM}},
    {"signals-none", {{0}, SIGNALS}},
    {"signals-found", {{1}, SIGNALS}},
    {"move-step1", {{1, 2, 2, 3, 1}, MOVE}},
    {"move-step2", {{1, 2, 2, 3, 5}, MOVE}},
    {"move-step3", {{1, 2, 2, 3, 8 + 12}, MOVE}},
    {"move-step4", {{1, 2, 2, 3, 72}, MOVE}},
    {"move-step5", {{1, 2, 2, 3, 80}, MOVE}},
    {"move-step6", {{1, 2, 2, 3, 89}, MOVE}},
};

/* Whether a call that is named for what it finds or sends does so, where the board has something. */
static int is_as_named(const char *name, vsk_answer a)
{
    int empty = strncmp(name, "empty/", 6) == 0;
    if (strstr(name, "none"))
        return a.value == 0;
    if (strstr(name, "found") || strstr(name, "topi") || strstr(name, "claimi"))
        return empty || a.value != 0;
    return empty || a.count != 0 || !strstr(name, "sends");
}

/* Makes the call once on each side, and notes the words that it changes. */
static void note_changes(struct item *it)
{
    static struct lent proved, plain;
    proved = plain = *it->board;
    vsk_answer a = make_proved(&proved, &it->call), b = make_plain(&plain, &it->call);
    if (a.value != b.value || a.count != b.count || a.refusal != b.refusal ||
        memcmp(&proved, &plain, sizeof proved) != 0 || !is_as_named(it->name, a)) {
        fprintf(stderr, "bench: the two sides do not agree on %s, or it is not what it is named\n", it->name);
        exit(1);
    }
    for (uint16_t i = 0; i < VSK_STATE_WORDS; i++) {
        if (proved.state[i] == it->board->state[i])
            continue;
        it->undo[it->changed].place = i;
        it->undo[it->changed++].word = it->board->state[i];
    }
}

/* Reset does not look at the board; the empty board's child delivers directly, which bars all moves alike. */
static int is_repetition(unsigned b, const struct call *c)
{
    return (b != 0 && c->kind == RESET) || (b == 0 && c->kind == MOVE && c->number[4] != 1);
}

unsigned build_items(const struct lent board[BOARDS], struct item *items)
{
    static const char *const name[BOARDS] = {"empty", "half", "full"};
    unsigned n = 0;
    for (unsigned b = 0; b < BOARDS; b++) {
        for (unsigned k = 0; k < sizeof calls / sizeof *calls && n < MAX_ITEMS; k++) {
            struct item *it = &items[n];
            if (is_repetition(b, &calls[k].call))
                continue;
            snprintf(it->name, sizeof it->name, "%s/%s", name[b], calls[k].name);
            it->call = calls[k].call;
            it->board = &board[b];
            note_changes(it);
            n++;
        }
    }
    return n;
}
