/* Every function, on a small case: variants A/G, A/C, A/AC, A/G, and one read of G, A and G at variants 0, 1 and 3. */
#include <inttypes.h>
#include <stdio.h>
#include "condorbed.h"

#define LEN(slice) (sizeof(slice) / sizeof *(slice))
#define CASE words, LEN(words), bases, LEN(bases)
#define LINE(format, slice)                                          \
    do {                                                             \
        for (size_t i = 0; i < LEN(slice); i++)                      \
            printf(i > 0 ? " " format : format, (slice)[i]);         \
        putchar('\n');                                               \
    } while (0)

static const int32_t words[] = {
    4, 1, 3, -2000, 3, 0,      /* N, F, C, cutoff, records used, the first free one */
    100, 31, 0, 1, 2, 1, 1, 0, /* pos0, depth, genotype, k, allele lengths */
    110, 28, 0, 1, 2, 1, 1, 0,
    120, 90, 0, 1, 2, 1, 2, 0,
    130, 30, 0, 1, 2, 1, 1, 0,
    1, 0,                      /* first call, strand: forward */
    0, 1, -13607, -622, 2,     /* variant, allele, qual, one_minus_qual, next */
    1, 0, -13607, -622, 3,
    3, 1, -13607, -622, 0,
};
static const uint8_t bases[] = {'A', 'G', 'A', 'C', 'A', 'A', 'C', 'A', 'G'};
static const condorbed_rates rates = {
    .hom_snv = -12000, .het_snv = -8000, .hom_indel = -20000, .het_indel = -16000, .ts = -4096, .tv = -8192,
};

/* done, or refused with the number and the place */
static void first_line(const char *operation, size_t number, size_t place)
{
    if (number == CONDORBED_DONE)
        printf("%s: done\n", operation);
    else
        printf("%s: refused %zu %zu\n", operation, number, place);
}

static void check_line(condorbed_check_answer a)
{
    first_line("check_case", a.number, a.place);
    printf("%zu %zu %zu %zu %zu %ld\n", a.n, a.f, a.c, a.used, a.free, (long)a.cutoff);
}

static void check_case(void)
{
    check_line(condorbed_check_case(CASE));
    check_line(condorbed_check_case(words, LEN(words) - 1, bases, LEN(bases))); /* a word is missing */
}

static void var_filter(void)
{
    const double quals[4] = {60.0, 55.0, 60.0, 50.0};
    const condorbed_density_parameters density = {.n = 2, .len = 30, .gq = 50.0};
    uint8_t filters[5] = {9, 9, 9, 9, 9};
    condorbed_answer a = condorbed_var_filter(CASE, quals, LEN(quals), density, 80, filters, 3); /* too short */
    first_line("var_filter", a.number, a.place);
    LINE("%" PRIu8, filters);
    a = condorbed_var_filter(CASE, quals, LEN(quals), density, 80, filters, LEN(filters));
    first_line("var_filter", a.number, a.place);
    LINE("%" PRIu8, filters);
}

static void genotype_priors(void)
{
    int64_t priors[9 * 4];
    condorbed_answer a = condorbed_genotype_priors(CASE, rates, priors, LEN(priors));
    first_line("genotype_priors", a.number, a.place);
    LINE("%" PRId64, priors);
}

static void call_genotypes_no_haplotypes(void)
{
    int32_t variants[13 * 4];
    double quals[4], gqs[4];
    condorbed_answer a = condorbed_call_genotypes_no_haplotypes(CASE, rates, variants, LEN(variants), quals, LEN(quals),
                                                                gqs, LEN(gqs));
    first_line("call_genotypes_no_haplotypes", a.number, a.place);
    LINE("%" PRId32, variants);
    LINE("%.4f", quals);
    LINE("%.4f", gqs);
}

static void given_phase(void)
{
    const uint8_t phase[4] = {'0', '1', '0', '1'};
    const int32_t sets[4] = {-1, 3, 3, 3};
    uint8_t haplotypes[2 * 4], phased[4];
    uint32_t names[4];
    condorbed_answer a = condorbed_given_phase(CASE, phase, LEN(phase), sets, LEN(sets), haplotypes, LEN(haplotypes),
                                               phased, LEN(phased), names, LEN(names));
    first_line("given_phase", a.number, a.place);
    LINE("%" PRIu8, haplotypes);
    LINE("%" PRIu8, phased);
    LINE("%" PRIu32, names);
}

static void generate_flist_buffer(void)
{
    uint8_t buffer[64] = {0};
    condorbed_flist_answer a = condorbed_generate_flist_buffer(CASE, true, buffer, 0); /* how many bytes are needed? */
    first_line("generate_flist_buffer", a.number, a.place);
    a = condorbed_generate_flist_buffer(CASE, true, buffer, LEN(buffer));
    first_line("generate_flist_buffer", a.number, a.place);
    printf("%zu %zu\n%s\n", a.bytes, a.lines, (const char *)buffer);
}

static void sweep_orders(void)
{
    uint32_t orders[2 * 4];
    condorbed_answer a = condorbed_sweep_orders(CASE, 0, orders, LEN(orders));
    first_line("sweep_orders", a.number, a.place);
    LINE("%" PRIu32, orders);
}

/* a limit of 0 is refused, one of 100 is enough */
static void call_genotypes_with_haplotypes(void)
{
    const uint8_t phase[4] = {'0', '1', '0', '1'};
    const int32_t sets[4] = {-1, 3, 3, 3};
    const uint32_t orders[2 * 4] = {2, 1, 0, 3, 2, 3, 1, 0};
    uint8_t haplotypes[2 * 4];
    int64_t likelihoods[2 * 1], posteriors[9 * 4];
    double quals[4], gqs[4];
    for (uint32_t limit = 0; limit <= 100; limit += 100) {
        condorbed_round_answer a = condorbed_call_genotypes_with_haplotypes(
            CASE, rates, phase, LEN(phase), sets, LEN(sets), orders, LEN(orders), limit, haplotypes, LEN(haplotypes),
            likelihoods, LEN(likelihoods), posteriors, LEN(posteriors), quals, LEN(quals), gqs, LEN(gqs));
        first_line("call_genotypes_with_haplotypes", a.number, a.place);
        printf("%zu %s %" PRId64 " %" PRId64 " %" PRId64 "\n", a.sweeps, a.settled ? "settled" : "unsettled", a.start,
               a.end, a.source);
    }
    LINE("%" PRIu8, haplotypes);
    LINE("%" PRId64, likelihoods);
    LINE("%" PRId64, posteriors);
    LINE("%.4f", quals);
    LINE("%.4f", gqs);
}

/* Two variants A/G and no read yet; fragment 0 is absent, and there are two unused records. */
static int32_t growing[] = {
    2, 1, 2, -2000, 0, 0,
    100, 31, 0, 1, 2, 1, 1, 0,
    110, 28, 0, 1, 2, 1, 1, 0,
    -1, 0,
    0, 0, 0, 0, 0,
    0, 0, 0, 0, 0,
};
static const uint8_t alleles[] = {'A', 'G', 'A', 'G'};
#define GROWING growing, LEN(growing), alleles, LEN(alleles)

/* What arrivals and departures read besides, and what they update. The total is that of a run at its start. */
static const uint8_t phase[2] = {'0', '1'}, haplotypes[2 * 2] = {0, 1, 1, 0};
static int64_t likelihoods[2 * 1] = {0}, total = -32590;
static int32_t counts[10 * 2] = {0};
#define VALUES \
    phase, LEN(phase), haplotypes, LEN(haplotypes), likelihoods, LEN(likelihoods), counts, LEN(counts), total

static void late_lines(const char *operation, condorbed_late_answer a)
{
    first_line(operation, a.number, a.place);
    printf("%s %" PRId64 "\n", a.settled ? "settled" : "unsettled", a.total);
    total = a.number == CONDORBED_DONE ? a.total : total;
    LINE("%" PRId32, growing);
    LINE("%" PRId64, likelihoods);
    LINE("%" PRId32, counts);
}

/* A read of A and G arrives and cannot arrive again. It departs, and its records 1 and 2 are free. Another read arrives,
   of A alone: it takes record 1. */
static void arrive_and_depart(void)
{
    const int32_t calls[2 * 4] = {0, 0, -13607, -622, 1, 1, -13607, -622}, call[1 * 4] = {1, 0, -13607, -622};
    for (int i = 0; i < 2; i++)
        late_lines("arrive", condorbed_arrive(GROWING, VALUES, 0, 0, calls, LEN(calls)));
    late_lines("depart", condorbed_depart(GROWING, VALUES, 0));
    check_line(condorbed_check_case(GROWING));
    late_lines("arrive", condorbed_arrive(GROWING, VALUES, 0, 1, call, LEN(call)));
    check_line(condorbed_check_case(GROWING));
}

int main(void)
{
    check_case();
    var_filter();
    genotype_priors();
    call_genotypes_no_haplotypes();
    given_phase();
    generate_flist_buffer();
    sweep_orders();
    call_genotypes_with_haplotypes();
    arrive_and_depart();
    return 0;
}
