/* An example of a plug-in: the demonstration's molecules (hosts/c/molecules.h), of two of them or of one against the ion. It takes
 * no words. Put your own energies in the place of pair_energy and ion_energy. */
#include "plugin.h"

#include "molecules.h"

#include <stdio.h>
#include <stdlib.h>

int icotable_plugin_start(int rank, int ranks, int count, char **words, void **data, char *said) {
    (void)rank, (void)ranks, (void)data;
    if (count > 0)
        snprintf(said, ICOTABLE_PLUGIN_SAID, "the molecules take no words: %s", words[0]);
    return count > 0;
}

/* The poses of both molecules at each direction, then each against each. */
static void pairs(const icotable_plugin_slab *slab, pose *first, pose *second, double *energies) {
    uint64_t n = slab->n;
    for (uint64_t i = 0; i < n; i++) {
        first[i] = first_pose(slab->directions + 3 * i);
        second[i] = second_pose(slab->directions + 3 * i, slab->omega);
    }
    for (uint64_t i = 0; i < n; i++)
        for (uint64_t j = 0; j < n; j++)
            energies[i * n + j] = pair_energy(&first[i], &second[j], slab->r);
}

int icotable_plugin_energies(void *data, const icotable_plugin_slab *slab, double *energies, uint64_t count, char *said) {
    (void)data;
    if (slab->atom) {
        for (uint64_t i = 0; i < count; i++) {
            pose turned = first_pose(slab->directions + 3 * i);
            energies[i] = ion_energy(&turned, slab->r);
        }
        return 0;
    }
    pose *poses = malloc(2 * slab->n * sizeof *poses);
    if (poses == NULL) {
        snprintf(said, ICOTABLE_PLUGIN_SAID, "no memory for %llu poses", (unsigned long long)(2 * slab->n));
        return 1;
    }
    pairs(slab, poses, poses + slab->n, energies);
    free(poses);
    return 0;
}
