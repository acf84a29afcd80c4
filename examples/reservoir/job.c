/* The job: pressure diffusion in a reservoir with varying permeability and two wells, in explicit steps. Each cell is computed from its neighbours by the same expression
   wherever the strips are cut, so the field has the same bits whatever n is. */
#include "reservoir.h"

#include <string.h>

static const double RATE = 0.2, FLOW = 0.05;

/* In millidarcies this would be a map from a survey; here it is a scramble of the cell's place, between 0.1 and 1. */
static double permeability(int x, int y) {
    uint32_t mixed = (uint32_t)(x + WIDTH * y) * 2654435761u;
    return 0.1 + (mixed >> 16) % 901 / 1000.0;
}

/* How easily it flows between two cells: the harmonic mean. */
static double ease(int x, int y, int other_x, int other_y) {
    double a = permeability(x, y), b = permeability(other_x, other_y);
    return 2 * a * b / (a + b);
}

static double well(int x, int y) {
    if (x == 5 && y == 7)
        return FLOW;
    if (x == 26 && y == 40)
        return -FLOW;
    return 0;
}

static int first_row(const struct job *job, uint32_t process) { return (int)(HEIGHT * process / job->n); }

bool strip_has(const struct job *job, uint32_t process, int side) { return side == UP ? process > 0 : process + 1 < job->n; }

void strip_begin(const struct job *job, uint32_t process, struct strip *strip) {
    memset(strip, 0, sizeof *strip);
    strip->process = process;
    strip->rows = (uint32_t)(first_row(job, process + 1) - first_row(job, process));
    for (uint32_t row = 0; row < strip->rows; row++)
        for (int x = 0; x < WIDTH; x++)
            strip->field[row][x] = 1;
}

bool strip_ready(const struct job *job, const struct strip *strip) {
    for (int side = 0; side < SIDES; side++)
        if (strip_has(job, strip->process, side) && strip->got[side][strip->step % 2] != strip->step + 1)
            return false;
    return true;
}

static double cell(int x, int y, double here, const double *up, const double *row, const double *down) {
    double change = 0;
    if (up != NULL)
        change += ease(x, y, x, y - 1) * (up[x] - here);
    if (x > 0)
        change += ease(x, y, x - 1, y) * (row[x - 1] - here);
    if (x + 1 < WIDTH)
        change += ease(x, y, x + 1, y) * (row[x + 1] - here);
    if (down != NULL)
        change += ease(x, y, x, y + 1) * (down[x] - here);
    return here + RATE * change + well(x, y);
}

void strip_step(const struct job *job, struct strip *strip) {
    static double next[HEIGHT][WIDTH];
    int first = first_row(job, strip->process), rows = (int)strip->rows, slot = strip->step % 2;
    const double *above = strip_has(job, strip->process, UP) ? strip->edge[UP][slot] : NULL;
    const double *below = strip_has(job, strip->process, DOWN) ? strip->edge[DOWN][slot] : NULL;
    for (int row = 0; row < rows; row++) {
        const double *up = row > 0 ? strip->field[row - 1] : above, *down = row + 1 < rows ? strip->field[row + 1] : below;
        for (int x = 0; x < WIDTH; x++)
            next[row][x] = cell(x, first + row, strip->field[row][x], up, strip->field[row], down);
    }
    for (int side = 0; side < SIDES; side++)
        memcpy(strip->before[side], strip_edge(strip, side, strip->step), sizeof strip->before[side]);
    memcpy(strip->field, next, strip->rows * sizeof next[0]);
    strip->step++;
}

const double *strip_edge(const struct strip *strip, int side, uint32_t step) {
    if (step == strip->step)
        return strip->field[side == UP ? 0 : strip->rows - 1];
    return step + 1 == strip->step ? strip->before[side] : NULL;
}
