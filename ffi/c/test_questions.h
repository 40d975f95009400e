/* The questions that the tests ask of a text, each named after the command of the program that answers it. */
#include "snapjudge.h"

static const struct snapjudge_part FIVE_FROM_TWO = {5, 2, 0};

enum { QUESTIONS = 20 };

static const char *const NAMES[QUESTIONS] = {
    "check", "explain",   "explain--draw", "explain--all",   "explain--all--draw",       "json",            "shrink", "shrink--draw",
    "draw",  "draw--svg", "draw--text",    "draw--light",    "draw--dark",               "draw--svg--dark", "stats",  "stats--json",
    "shrink--map",        "explain--faults3",                "explain--all--faults3", "draw--svg--calls5--from2"};

static const struct snapjudge_question ASKED[QUESTIONS] = {
    {SNAPJUDGE_CHECK, SNAPJUDGE_EVENTS, 0, "-", NULL, 0},
    {SNAPJUDGE_EXPLAIN, SNAPJUDGE_EVENTS, 0, "-", NULL, 0},
    {SNAPJUDGE_EXPLAIN, SNAPJUDGE_EVENTS, SNAPJUDGE_DRAWN, "-", NULL, 0},
    {SNAPJUDGE_EXPLAIN, SNAPJUDGE_EVENTS, SNAPJUDGE_WHOLE, "-", NULL, 0},
    {SNAPJUDGE_EXPLAIN, SNAPJUDGE_EVENTS, SNAPJUDGE_WHOLE | SNAPJUDGE_DRAWN, "-", NULL, 0},
    {SNAPJUDGE_JSON, SNAPJUDGE_EVENTS, 0, "-", NULL, 0},
    {SNAPJUDGE_SHRINK, SNAPJUDGE_EVENTS, 0, "-", NULL, 0},
    {SNAPJUDGE_SHRINK, SNAPJUDGE_EVENTS, 1, "-", NULL, 0},
    {SNAPJUDGE_DRAW, SNAPJUDGE_EVENTS, SNAPJUDGE_PAGE, "-", NULL, 0},
    {SNAPJUDGE_DRAW, SNAPJUDGE_EVENTS, SNAPJUDGE_SVG, "-", NULL, 0},
    {SNAPJUDGE_DRAW, SNAPJUDGE_EVENTS, SNAPJUDGE_LINES, "-", NULL, 0},
    {SNAPJUDGE_DRAW, SNAPJUDGE_EVENTS, SNAPJUDGE_LIGHT_PAGE, "-", NULL, 0},
    {SNAPJUDGE_DRAW, SNAPJUDGE_EVENTS, SNAPJUDGE_DARK_PAGE, "-", NULL, 0},
    {SNAPJUDGE_DRAW, SNAPJUDGE_EVENTS, SNAPJUDGE_DARK_SVG, "-", NULL, 0},
    {SNAPJUDGE_STATS, SNAPJUDGE_EVENTS, 0, "-", NULL, 0},
    {SNAPJUDGE_STATS, SNAPJUDGE_EVENTS, 1, "-", NULL, 0},
    {SNAPJUDGE_SHRINK, SNAPJUDGE_EVENTS, SNAPJUDGE_WITNESS_MAP, "-", NULL, 0},
    {SNAPJUDGE_EXPLAIN_FAULTS, SNAPJUDGE_EVENTS, 0, "-", NULL, 3},
    {SNAPJUDGE_EXPLAIN_FAULTS, SNAPJUDGE_EVENTS, 1, "-", NULL, 3},
    {SNAPJUDGE_DRAW, SNAPJUDGE_EVENTS, SNAPJUDGE_SVG, "-", &FIVE_FROM_TWO, 0},
};
