/* Threads: four, each with a screen of its own, four that paint one screen, each with depth and painting words of its own, and four that paint the rows of one
 * canvas side by side. All of them get the pieces that one thread gets. Built with -fsanitize=thread it shows besides that no two touch the same word (of what C does: the archive is not instrumented).
 * Prints each thing that does not hold; the status is 1 if anything does not. Wants coarse_bucketer.h on the include path, and -pthread. */
#include "coarse_bucketer.h"
#include <pthread.h>
#include <stdio.h>

enum { THREADS = 4, ROWS = 64, DRAWS = 40, ROOM = 40000 };

static int wrong;

static void hold(int holds, const char *what) {
    if (!holds) {
        printf("%s\n", what);
        wrong++;
    }
}

/* A screen of 1,024 x 256 pixels, and 40 draws over all its rows. 0 if all were done. */
static uint32_t drawn(coarse_bucketer *screen) {
    static const coarse_paint paints[] = {{1, 1, 0, 0}, {0, 2, 0, 0}};
    const coarse_setup setup = {64, 64, COARSE_EXACT, COARSE_128};
    const coarse_rect viewport = {0, 0, 1024, 4 * ROWS};
    coarse_segment list[ROWS];
    coarse_draw draw;
    uint32_t k, row, answer = coarse_bucketer_new(screen, viewport, setup);
    memset(&draw, 0, sizeof draw);
    draw.end = ROWS;
    draw.blend.compose = 3;
    for (k = 0; k < DRAWS && answer == COARSE_DONE; k++) {
        for (row = 0; row < ROWS; row++) {
            coarse_segment one = {0, row, (k * 7 + row) % 100, 100 + (k * 13 + row) % 150, 0};
            list[row] = one;
        }
        draw.paint = k % 3 == 0 ? 0 : 1;
        answer = coarse_bucketer_generate_fill(screen, paints, 2, list, ROWS, &draw);
    }
    return answer == COARSE_DONE ? coarse_bucketer_begin_painting(screen) : answer;
}

/* What a thread works with, and the pieces that it got, one row after the other. */
typedef struct {
    const coarse_bucketer *screen;
    coarse_canvas canvas;
    uint32_t *pieces;
    size_t words;
    int done;
} job;

static void *paint(void *given) {
    job *j = (job *)given;
    const coarse_bucketer *b = j->screen;
    const coarse_state *state = coarse_bucketer_state(b);
    const coarse_stored *stored = coarse_bucketer_stored(b);
    coarse_row_progress told = {0, 0};
    size_t row;
    for (row = 0; row < ROWS; row++) {
        coarse_painted painted = {0, 0};
        coarse_row_counts lengths = {0, 0};
        if (coarse_paint_row(state, stored, &j->canvas, row, j->pieces + j->words, ROOM - j->words, &painted) != COARSE_DONE || painted.finished != 1)
            return NULL;
        if (coarse_progress(state, &j->canvas, row, &told) != COARSE_DONE || coarse_bucketer_row_lengths(b, row, &lengths) != COARSE_DONE ||
            told.steps != lengths.render_cmds + lengths.depth_cmds)
            return NULL;
        j->words += painted.pieces * COARSE_PIECE;
    }
    j->done = 1;
    return NULL;
}

/* A screen of the thread's own, painted by the bucketer's calls. */
static void *draw_and_paint(void *given) {
    job *j = (job *)given;
    coarse_bucketer screen;
    const coarse_piece *pieces = NULL;
    size_t row, count = 0;
    j->done = drawn(&screen) == COARSE_DONE;
    for (row = 0; row < ROWS && j->done; row++) {
        j->done = coarse_bucketer_paint_row(&screen, row, &pieces, &count) == COARSE_DONE && j->words + count * COARSE_PIECE <= ROOM;
        if (j->done)
            memcpy(j->pieces + j->words, pieces, count * sizeof *pieces);
        j->words += j->done ? count * COARSE_PIECE : 0;
    }
    coarse_bucketer_free(&screen);
    return NULL;
}

static job job_on(const coarse_bucketer *screen) {
    job made = {screen, {NULL, 0, NULL, 0, NULL, 0}, NULL, 0, 0};
    made.pieces = (uint32_t *)calloc(ROOM, sizeof(uint32_t));
    if (coarse_bucketer_canvas(screen, &made.canvas) != COARSE_DONE || !made.pieces)
        exit(2);
    return made;
}

static void let_go(job *j) {
    coarse_bucketer_canvas_free(&j->canvas), free(j->pieces);
}

/* Four threads of the kind, and what each got beside what one thread gets. */
static void four(void *(*kind)(void *), const coarse_bucketer *screen, const job *alone, const char *what) {
    pthread_t threads[THREADS];
    job jobs[THREADS];
    int i;
    for (i = 0; i < THREADS; i++) {
        jobs[i] = job_on(screen);
        if (pthread_create(&threads[i], NULL, kind, &jobs[i]) != 0)
            exit(2);
    }
    for (i = 0; i < THREADS; i++) {
        pthread_join(threads[i], NULL);
        hold(jobs[i].done && jobs[i].words == alone->words && memcmp(jobs[i].pieces, alone->pieces, alone->words * sizeof(uint32_t)) == 0, what);
        let_go(&jobs[i]);
    }
}

/* Every fourth row of one canvas, by its own words, each into a part of the list that is the row's alone. */
enum { ROW_ROOM = ROOM / ROWS };

typedef struct {
    const job *on;
    size_t first;
    size_t *words;
    int done;
} share;

static void *paint_own(void *given) {
    share *s = (share *)given;
    const coarse_bucketer *b = s->on->screen;
    size_t row;
    for (row = s->first; row < ROWS; row += THREADS) {
        coarse_stored own;
        coarse_canvas words;
        coarse_painted painted = {0, 0};
        if (coarse_bucketer_own_row(b, &s->on->canvas, row, &own, &words) != COARSE_DONE ||
            coarse_paint_own_row(coarse_bucketer_state(b), &own, &words, s->on->pieces + row * ROW_ROOM, ROW_ROOM, &painted) != COARSE_DONE ||
            painted.finished != 1)
            return NULL;
        s->words[row] = painted.pieces * COARSE_PIECE;
    }
    s->done = 1;
    return NULL;
}

static int same(const uint32_t *a, const uint32_t *b, size_t words) {
    return memcmp(a, b, words * sizeof *a) == 0;
}

static void side_by_side(const coarse_bucketer *screen, const job *alone) {
    pthread_t threads[THREADS];
    job on = job_on(screen);
    share shares[THREADS];
    size_t words[ROWS] = {0}, row, at = 0;
    int i;
    for (i = 0; i < THREADS; i++) {
        share one = {NULL, (size_t)i, words, 0};
        shares[i] = one, shares[i].on = &on;
        if (pthread_create(&threads[i], NULL, paint_own, &shares[i]) != 0)
            exit(2);
    }
    for (i = 0; i < THREADS; i++) {
        pthread_join(threads[i], NULL);
        hold(shares[i].done, "a thread paints its rows");
    }
    for (row = 0; row < ROWS; row++) {
        hold(at + words[row] <= alone->words && same(on.pieces + row * ROW_ROOM, alone->pieces + at, words[row]), "side by side: other pieces than alone");
        at += words[row];
    }
    hold(at == alone->words, "side by side: as many pieces as alone");
    hold(same(on.canvas.depth, alone->canvas.depth, on.canvas.depth_len) && same(on.canvas.minima, alone->canvas.minima, on.canvas.minima_len) &&
             same(on.canvas.painting, alone->canvas.painting, on.canvas.painting_len),
         "side by side: other words than alone");
    let_go(&on);
}

int main(void) {
    coarse_bucketer screen;
    job alone;
    if (drawn(&screen) != COARSE_DONE)
        return 2;
    alone = job_on(&screen);
    paint(&alone);
    hold(alone.done && alone.words > 0, "one thread paints it");
    four(paint, &screen, &alone, "four on one screen: other pieces than alone");
    four(draw_and_paint, &screen, &alone, "four on screens of their own: other pieces than alone");
    side_by_side(&screen, &alone);
    printf("%lu pieces by each of %d threads; %d things do not hold\n", (unsigned long)(alone.words / COARSE_PIECE), 2 * THREADS, wrong);
    let_go(&alone);
    coarse_bucketer_free(&screen);
    return wrong != 0;
}
