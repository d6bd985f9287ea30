/* The two built-in tables of 004: V (CSP-T) and III-A-4 (CSP-F). */
#include "station.h"

struct cell {
    uint16_t i, S;
};

enum { AQLS = 8, T_LETTERS = 11, F_LETTERS = 8, F_ROWS = 21, F_AQL = 40 };
enum { TABLE_N_MAX = 1000000 };

static const uint32_t aqls[AQLS] = {
    400, 650, 1000, 1500, 2500, 4000, 6500, 10000
};

static const uint8_t frequencies[T_LETTERS] = {
    2, 3, 4, 5, 7, 10, 15, 25, 50, 100, 100
};

static const struct cell table_v[T_LETTERS][AQLS] = {
    { {87, 159}, {58, 117}, {38, 77}, {25, 52},
      {16, 34}, {10, 22}, {7, 13}, {5, 12} },
    { {116, 256}, {78, 197}, {51, 128}, {33, 80},
      {22, 59}, {13, 35}, {9, 25}, {6, 18} },
    { {139, 379}, {93, 253}, {61, 167}, {39, 103},
      {26, 78}, {15, 43}, {11, 38}, {7, 24} },
    { {158, 444}, {106, 320}, {69, 210}, {44, 130},
      {29, 93}, {17, 54}, {12, 43}, {8, 30} },
    { {189, 725}, {127, 460}, {82, 289}, {53, 188},
      {35, 137}, {21, 81}, {14, 59}, {9, 34} },
    { {224, 857}, {150, 619}, {97, 398}, {63, 261},
      {41, 189}, {24, 104}, {17, 88}, {11, 58} },
    { {266, 1254}, {179, 900}, {116, 584}, {74, 368},
      {49, 376}, {29, 152}, {20, 126}, {13, 84} },
    { {324, 1885}, {217, 1396}, {141, 923}, {90, 545},
      {59, 421}, {35, 235}, {24, 198}, {15, 122} },
    { {409, 3283}, {274, 2477}, {177, 1604}, {114, 1013},
      {75, 764}, {44, 408}, {30, 374}, {19, 223} },
    { {499, 5753}, {335, 4541}, {217, 2948}, {139, 1754},
      {91, 1341}, {53, 708}, {37, 653}, {23, 391} },
    { {499, 5753}, {335, 4541}, {217, 2948}, {139, 1754},
      {91, 1341}, {53, 708}, {37, 653}, {23, 391} },
};

/* The last N of each row of Table III-A-4; "and over" ends at the limit. */
static const uint32_t row_ends[F_ROWS] = {
    500, 1000, 2000, 3000, 4000, 5000, 6000, 7000, 8000, 9000, 10000,
    11000, 12000, 15000, 20000, 30000, 40000, 50000, 60000, 70000,
    TABLE_N_MAX
};

static const uint16_t table_iii_a_4[F_ROWS][F_LETTERS] = {
    { 195, 233, 250, 259, 268, 275, 280, 284 },
    { 253, 327, 361, 380, 400, 415, 426, 435 },
    { 302, 424, 485, 522, 563, 593, 617, 635 },
    { 324, 474, 557, 608, 668, 713, 748, 776 },
    { 336, 504, 604, 667, 744, 803, 850, 887 },
    { 343, 525, 636, 710, 801, 874, 932, 979 },
    { 348, 539, 660, 743, 847, 931, 1000, 1057 },
    { 352, 550, 679, 768, 884, 979, 1058, 1124 },
    { 355, 559, 693, 789, 914, 1020, 1109, 1184 },
    { 357, 566, 705, 805, 939, 1054, 1153, 1237 },
    { 359, 571, 715, 819, 960, 1084, 1192, 1285 },
    { 361, 576, 723, 831, 979, 1111, 1227, 1329 },
    { 362, 580, 730, 841, 995, 1134, 1258, 1369 },
    { 365, 588, 746, 864, 1032, 1189, 1335, 1469 },
    { 368, 598, 762, 888, 1072, 1251, 1426, 1595 },
    { 371, 607, 779, 914, 1116, 1321, 1534, 1756 },
    { 373, 612, 788, 928, 1139, 1359, 1595, 1855 },
    { 373, 615, 794, 936, 1153, 1383, 1635, 1921 },
    { 374, 617, 797, 942, 1163, 1399, 1662, 1968 },
    { 375, 618, 800, 946, 1170, 1411, 1682, 2004 },
    { 375, 620, 810, 965, 1205, 1470, 1800, 2215 },
};

static int csp_t_plan(uint32_t letter, uint32_t aql, struct plan *plan)
{
    size_t column = 0;

    if (letter < 1 || letter > T_LETTERS)
        return 0;
    while (column < AQLS && aqls[column] != aql)
        column++;
    if (column == AQLS)
        return 0;
    plan->n = frequencies[letter - 1];
    plan->i = table_v[letter - 1][column].i;
    plan->S = table_v[letter - 1][column].S;
    return 1;
}

static int csp_f_plan(uint32_t letter, uint32_t aql, uint32_t N,
                      struct plan *plan)
{
    size_t row = 0;

    if (letter < 1 || letter > F_LETTERS || aql != F_AQL)
        return 0;
    if (N < 1 || N > TABLE_N_MAX)
        return 0;
    while (N > row_ends[row])
        row++;
    plan->n = frequencies[letter - 1];
    plan->i = table_iii_a_4[row][letter - 1];
    return 1;
}

/* N goes into the plan as given: a CSP-T plan with one is out of range. */
int table_plan(uint32_t type, uint32_t letter, uint32_t aql, uint32_t N,
               struct plan *plan)
{
    *plan = (struct plan){ .type = type, .N = N };
    if (type == CSP_T)
        return csp_t_plan(letter, aql, plan);
    if (type == CSP_F)
        return csp_f_plan(letter, aql, N, plan);
    return 0;
}
