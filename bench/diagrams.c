/* The families of crates/diagrams_bench in BuDDy, by the same operations in the same order:
 *     diagrams FAMILY N ROUNDS
 * prints how many nodes were made, and the variables that are true in the least bits at which the last
 * function built is true. Each round has a table of its own, which begins with 10,000 nodes and grows. */
#include <bdd.h>
#include <stdio.h>
#include <stdlib.h>
#include <string.h>

/* The result of an operation, kept while the round lasts. */
static BDD keep(BDD d) { return bdd_addref(d); }

/* `next` in the place of `last`, which is no longer needed. */
static BDD instead(BDD last, BDD next) {
    bdd_addref(next);
    bdd_delref(last);
    return next;
}

static BDD adder(int size) {
    BDD carry = bddfalse;
    for (int bit = size - 1; bit >= 0; bit--) {
        BDD a = bdd_ithvar(bit * 2), b = bdd_ithvar(bit * 2 + 1);
        BDD differ = keep(bdd_xor(a, b));
        keep(bdd_xor(differ, carry));
        carry = keep(bdd_ite(differ, carry, a));
    }
    return carry;
}

static BDD weighted(int size) {
    BDD *weights = malloc((size + 1) * sizeof *weights);
    for (int k = 0; k <= size; k++) weights[k] = k == 0 ? bddtrue : bddfalse;
    for (int v = 0; v < size; v++) {
        BDD lighter = bddfalse;
        for (int k = 0; k <= size; k++) {
            BDD sum = keep(bdd_ite(bdd_ithvar(v), lighter, weights[k]));
            lighter = weights[k];
            weights[k] = sum;
        }
    }
    BDD function = bddfalse;
    for (int v = 0; v < size; v++) {
        BDD here = keep(bdd_and(weights[v + 1], bdd_ithvar(v)));
        function = instead(function, bdd_or(function, here));
    }
    free(weights);
    return function;
}

static int attacks(int size, int one, int other) {
    int rows = abs(one / size - other / size), columns = abs(one % size - other % size);
    return one != other && (rows == 0 || columns == 0 || rows == columns);
}

static BDD queens(int size) {
    BDD placed = bddtrue;
    for (int row = 0; row < size; row++) {
        BDD taken = bddfalse;
        for (int column = 0; column < size; column++)
            taken = instead(taken, bdd_or(taken, bdd_ithvar(row * size + column)));
        placed = instead(placed, bdd_and(placed, taken));
        bdd_delref(taken);
    }
    for (int square = 0; square < size * size; square++) {
        BDD clear = bddtrue;
        for (int other = 0; other < size * size; other++)
            if (attacks(size, square, other))
                clear = instead(clear, bdd_ite(bdd_ithvar(other), bddfalse, clear));
        BDD safe = keep(bdd_ite(bdd_ithvar(square), clear, bddtrue));
        bdd_delref(clear);
        placed = instead(placed, bdd_and(placed, safe));
        bdd_delref(safe);
    }
    return placed;
}

static void least(BDD built) {
    printf("least");
    for (BDD d = bdd_fullsatone(built); d > 1; d = bdd_low(d) == bddfalse ? bdd_high(d) : bdd_low(d))
        if (bdd_low(d) == bddfalse) printf(" %d", bdd_var(d));
    printf("\n");
}

int main(int count, char **words) {
    if (count != 4) return 2;
    int size = atoi(words[2]), rounds = atoi(words[3]);
    for (int round = 1; round <= rounds; round++) {
        BDD built;
        bddStat made;
        bdd_init(10000, 10000);
        bdd_setcacheratio(4);
        bdd_setmaxincrease(1000000);
        bdd_gbc_hook(NULL);
        if (strcmp(words[1], "adder") == 0) {
            bdd_setvarnum(size * 2);
            built = adder(size);
        } else if (strcmp(words[1], "weighted") == 0) {
            bdd_setvarnum(size);
            built = weighted(size);
        } else if (strcmp(words[1], "queens") == 0) {
            bdd_setvarnum(size * size);
            built = queens(size);
        } else {
            return 2;
        }
        bdd_stats(&made);
        if (round == rounds) {
            printf("nodes %ld\n", made.produced);
            least(built);
        }
        bdd_done();
    }
    return 0;
}
