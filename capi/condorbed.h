/*
 * Condorbed: the genotyping core of longshot, proved. Link with target/staticlib/libexports.a, which
 * `tools/build library` writes (x86-64 Linux).
 *
 * docs/FORMAT.md describes the case (words and bases, section 1), log probabilities in steps (section 2), what each
 * function reads, writes and returns (section 3) and the refusals (section 4).
 *
 * Every function takes any values whatsoever and always answers: its result, or a refusal with a number and a place.
 * A refused call leaves every slice as it was. A done call writes the elements named below and leaves those past them.
 *
 * The caller's duties, which C cannot check:
 *   - A slice is a pointer and a length, in elements. The length is true: that many elements can be read there and, if
 *     the pointer is not const, written. They are initialised, and aligned as C aligns them.
 *   - No pointer is NULL, even if the length is 0.
 *   - A slice that is written overlaps no other slice of the same call.
 *   - While a call runs, nothing else writes its slices, or reads those that it writes.
 *   - The thread has 1 MiB of stack left.
 * The functions keep nothing between calls, so threads may call them at the same time.
 */
#ifndef CONDORBED_H
#define CONDORBED_H

#include <stdbool.h>
#include <stddef.h>
#include <stdint.h>

#ifdef __cplusplus
extern "C" {
#endif

/* The number of an answer; the comment says what its place is. */
enum {
    CONDORBED_DONE = 0,          /* 0 */
    CONDORBED_HEAD = 1,          /* word 0..5; 6: wrong length; 0: fewer than six words */
    CONDORBED_VARIANT = 2,       /* variant; also of a haplotype lent as input that is not below k */
    CONDORBED_ALLELES = 3,       /* variant; N: wrong length */
    CONDORBED_CALL = 4,          /* call record, from 1; of an arriving call its index, from 0 */
    CONDORBED_CHAIN = 5,         /* fragment (also of a strand outside 0..3); F: the free chain, or a used record in no
                                    chain; of an arriving call that does not rise its index, from 0; the number of whole
                                    arriving calls: a broken length, or a strand outside 0..3 */
    CONDORBED_RATES = 6,         /* rate 0..5; 6: their sum */
    CONDORBED_PHASE = 7,         /* variant; N: wrong length */
    CONDORBED_ORDERS = 8,        /* order; 0: wrong length */
    CONDORBED_LIMIT = 9,         /* the limit */
    CONDORBED_SHORT = 10,        /* elements needed in a slice that is too short; 0: a lent total, likelihood or count
                                    outside its range, before or after */
    CONDORBED_DENSITY_QUAL = 11, /* 0 */
    CONDORBED_NORMALIZE = 12,    /* variant; proved never to happen */
    CONDORBED_FRAGMENT = 13,     /* the fragment's number: it is none, or an arriving one is present, or a departing one
                                    absent */
    CONDORBED_NO_ROOM = 14       /* the number of arriving calls: free and unused records together are fewer */
};

typedef struct {
    size_t number;
    size_t place;
} condorbed_answer;

/* If done: N, F, C, the number of call records used, the first free one (0: none) and the cutoff; else zeros. */
typedef struct {
    size_t number;
    size_t place;
    size_t n;
    size_t f;
    size_t c;
    size_t used;
    size_t free;
    int32_t cutoff;
} condorbed_check_answer;

/* If done: how many bytes and lines were written; else zeros. */
typedef struct {
    size_t number;
    size_t place;
    size_t bytes;
    size_t lines;
} condorbed_flist_answer;

/* If done: the number of sweeps, whether the last one changed nothing (else the limit stopped the run), the phased
   total at the start and at the end, and the source's total at the end; else zeros. */
typedef struct {
    size_t number;
    size_t place;
    size_t sweeps;
    bool settled;
    int64_t start;
    int64_t end;
    int64_t source;
} condorbed_round_answer;

/* If done: settled is false, and the new phased total; else zeros. Whether a sample is settled is the answer of the latest
   arrival, departure or run; the caller keeps it. */
typedef struct {
    size_t number;
    size_t place;
    bool settled;
    int64_t total;
} condorbed_late_answer;

/* In steps, each -262144..-1; the first four, added up as probabilities, stay below certainty. */
typedef struct {
    int64_t hom_snv;
    int64_t het_snv;
    int64_t hom_indel;
    int64_t het_indel;
    int64_t ts;
    int64_t tv;
} condorbed_rates;

/* A stretch is too dense if more than n later variants of quality gq or more lie within len bases of such a variant. */
typedef struct {
    uint32_t n;
    uint32_t len;
    double gq;
} condorbed_density_parameters;

/* Checks a case: numbers 1 to 5. Every function below does this first. */
condorbed_check_answer condorbed_check_case(const int32_t *words, size_t words_len,
                                            const uint8_t *bases, size_t bases_len);

/* Writes 1 filter per variant: 0, or the sum of 1 (too dense) and 2 (deeper than max_depth). quals has N elements or
   more. */
condorbed_answer condorbed_var_filter(const int32_t *words, size_t words_len,
                                      const uint8_t *bases, size_t bases_len,
                                      const double *quals, size_t quals_len,
                                      condorbed_density_parameters density, uint32_t max_depth,
                                      uint8_t *filters, size_t filters_len);

/* Writes 9 priors per variant: k x k, row by row, then zeros. */
condorbed_answer condorbed_genotype_priors(const int32_t *words, size_t words_len,
                                           const uint8_t *bases, size_t bases_len,
                                           condorbed_rates rates,
                                           int64_t *priors, size_t priors_len);

/* Calls each variant without haplotypes. Writes 13 values per variant to variants, and 1 quality of the variant (quals)
   and 1 of its genotype (gqs) per variant. */
condorbed_answer condorbed_call_genotypes_no_haplotypes(const int32_t *words, size_t words_len,
                                                        const uint8_t *bases, size_t bases_len,
                                                        condorbed_rates rates,
                                                        int32_t *variants, size_t variants_len,
                                                        double *quals, size_t quals_len,
                                                        double *gqs, size_t gqs_len);

/* The given phase. phase has exactly 1 byte per variant ('0', '1', or another one for none), sets exactly 1 set per
   variant (below N, or negative for none). Writes 2 haplotype alleles, 1 phased flag (0 or 1) and 1 set name (0: none)
   per variant. */
condorbed_answer condorbed_given_phase(const int32_t *words, size_t words_len,
                                       const uint8_t *bases, size_t bases_len,
                                       const uint8_t *phase, size_t phase_len,
                                       const int32_t *sets, size_t sets_len,
                                       uint8_t *haplotypes, size_t haplotypes_len,
                                       uint8_t *phased, size_t phased_len,
                                       uint32_t *names, size_t names_len);

/* Writes the fragment lines that HapCUT2 reads, each ended by a zero byte. A buffer that is too short is refused; the
   place is the number of bytes needed. */
condorbed_flist_answer condorbed_generate_flist_buffer(const int32_t *words, size_t words_len,
                                                       const uint8_t *bases, size_t bases_len,
                                                       bool single_reads,
                                                       uint8_t *buffer, size_t buffer_len);

/* Fills orders with orders of the variants drawn from seed. Its length is m times N for some m >= 1; 0 if N is 0. */
condorbed_answer condorbed_sweep_orders(const int32_t *words, size_t words_len,
                                        const uint8_t *bases, size_t bases_len,
                                        uint64_t seed,
                                        uint32_t *orders, size_t orders_len);

/* One round of calling genotypes with haplotypes, from the given phase (phase and sets as in condorbed_given_phase). It
   sweeps over all variants until a sweep changes nothing or limit (1..1000000) sweeps are made. Sweep s uses order s
   mod m of the m orders in orders, m times N elements. Writes 2 haplotype alleles per variant, 2 likelihoods per
   fragment, 9 posteriors per variant (k x k, row by row, then zeros), and 1 quality of the variant (quals) and 1 of its
   genotype (gqs) per variant. */
condorbed_round_answer condorbed_call_genotypes_with_haplotypes(const int32_t *words, size_t words_len,
                                                                const uint8_t *bases, size_t bases_len,
                                                                condorbed_rates rates,
                                                                const uint8_t *phase, size_t phase_len,
                                                                const int32_t *sets, size_t sets_len,
                                                                const uint32_t *orders, size_t orders_len,
                                                                uint32_t limit,
                                                                uint8_t *haplotypes, size_t haplotypes_len,
                                                                int64_t *likelihoods, size_t likelihoods_len,
                                                                int64_t *posteriors, size_t posteriors_len,
                                                                double *quals, size_t quals_len,
                                                                double *gqs, size_t gqs_len);

/* A fragment arrives: one whose number is absent, with its strand (0 forward, 1 reverse; 2 and 3 the same, muted) and its
   calls (4 words each: variant, allele, qual, one_minus_qual), which take the free call records from the first on, then
   unused ones. phase is exactly 1 byte per variant, haplotypes 2 alleles per variant as they stand. Updates the words, 2
   likelihoods per fragment, 10 counts per variant (those of condorbed_call_genotypes_no_haplotypes, its third to twelfth
   value) and the phased total, as the fragment changes them. A muted fragment does not vote: its calls count as ambiguous,
   its likelihoods are 0 and the total stays. */
condorbed_late_answer condorbed_arrive(int32_t *words, size_t words_len,
                                       const uint8_t *bases, size_t bases_len,
                                       const uint8_t *phase, size_t phase_len,
                                       const uint8_t *haplotypes, size_t haplotypes_len,
                                       int64_t *likelihoods, size_t likelihoods_len,
                                       int32_t *counts, size_t counts_len,
                                       int64_t total, uint32_t fragment, int32_t strand,
                                       const int32_t *calls, size_t calls_len);

/* A fragment departs: it is absent afterwards, with likelihoods of 0. Its call records are free, and are the next to be
   taken. Its calls leave the counts, and the share of its lent likelihoods leaves the total. */
condorbed_late_answer condorbed_depart(int32_t *words, size_t words_len,
                                       const uint8_t *bases, size_t bases_len,
                                       const uint8_t *phase, size_t phase_len,
                                       const uint8_t *haplotypes, size_t haplotypes_len,
                                       int64_t *likelihoods, size_t likelihoods_len,
                                       int32_t *counts, size_t counts_len,
                                       int64_t total, uint32_t fragment);

#ifdef __cplusplus
}
#endif

#endif
