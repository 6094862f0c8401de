// Products and inverses of n by n drawn matrices by FLINT and NTL (Debian's libflint-dev and libntl-dev), in one thread, beside
// bench/matrices.c:
//
//   g++ -O2 -std=c++17 -o others bench/matrices.cpp -lntl -lflint -lgmp -lpthread && ./others [SAMPLES] [SECONDS]
//
// A number is processor time in nanoseconds divided by n^3, the least of the samples; a row ends before a size whose sample would take more
// than SECONDS. FLINT has the fields of 8 and 16 bits by logarithms (`fq_zech`) and as polynomials (`fq_nmod`), NTL as polynomials (GF2E).
// The field of 128 bits is that of GHASH.
#include <NTL/GF2XFactoring.h>
#include <NTL/mat_GF2E.h>
#include <flint/fq_nmod.h>
#include <flint/fq_nmod_mat.h>
#include <flint/fq_zech.h>
#include <flint/fq_zech_mat.h>
#include <flint/nmod_poly.h>

#include <cstdio>
#include <cstdlib>
#include <ctime>
#include <functional>
#include <initializer_list>

namespace {

const long SIZES[] = {8, 64, 256, 512, 2048};
int samples = 5;
double seconds = 30;

double now() {
    timespec time;
    clock_gettime(CLOCK_THREAD_CPUTIME_ID, &time);
    return time.tv_sec * 1e9 + time.tv_nsec;
}

// `prepare` returns a call for matrices of n rows.
void row(const char *name, int bits, const std::function<std::function<void()>(long)> &prepare) {
    std::printf("%-16s %3d", name, bits);
    double expected = 0;
    long before = 0;
    for (long n : SIZES) {
        if (before && expected * n / before * n / before * n / before > seconds * 1e9) break;
        const auto call = prepare(n);
        const long rounds = 1 + 200000 / (n * n * n);
        double least = 1e18;
        for (int sample = 0; sample < samples; sample++) {
            const double start = now();
            for (long round = 0; round < rounds; round++) call();
            const double time = (now() - start) / rounds;
            if (time < least) least = time;
            if (time > seconds * 1e9 / samples) break;
        }
        std::printf(" %9.3f", least / n / n / n);
        std::fflush(stdout);
        expected = least, before = n;
    }
    std::printf("\n");
}

void set_bits(nmod_poly_t polynomial, std::initializer_list<long> exponents) {
    nmod_poly_init(polynomial, 2);
    for (long exponent : exponents) nmod_poly_set_coeff_ui(polynomial, exponent, 1);
}

// The rows of FLINT's polynomials. Matrices of the larger sizes stay, since the program ends soon.
void rows_of_polynomials(int bits, std::initializer_list<long> exponents) {
    nmod_poly_t modulus;
    set_bits(modulus, exponents);
    static fq_nmod_ctx_t fields[3];
    static int count = 0;
    auto &field = fields[count++];
    fq_nmod_ctx_init_modulus(field, modulus, "x");
    static flint_rand_t state;
    flint_randinit(state);
    auto *matrices = static_cast<fq_nmod_mat_struct *>(std::calloc(3, sizeof(fq_nmod_mat_struct)));
    const auto draw = [&field, matrices](long n) {
        for (int i = 0; i < 3; i++) {
            fq_nmod_mat_init(&matrices[i], n, n, field);
            for (long r = 0; r < n; r++)
                for (long c = 0; c < n; c++) fq_nmod_rand(fq_nmod_mat_entry(&matrices[i], r, c), state, field);
        }
    };
    row("FLINT product", bits, [&](long n) {
        draw(n);
        return [&field, matrices] { fq_nmod_mat_mul(&matrices[2], &matrices[0], &matrices[1], field); };
    });
    row("FLINT inverse", bits, [&](long n) {
        draw(n);
        return [&field, matrices] { fq_nmod_mat_inv(&matrices[2], &matrices[0], field); };
    });
}

// The rows of FLINT's logarithms.
void rows_of_logarithms(int bits) {
    fmpz_t two;
    fmpz_init_set_ui(two, 2);
    static fq_zech_ctx_t fields[3];
    static int count = 0;
    auto &field = fields[count++];
    fq_zech_ctx_init(field, two, bits, "x");
    static flint_rand_t state;
    flint_randinit(state);
    auto *matrices = static_cast<fq_zech_mat_struct *>(std::calloc(3, sizeof(fq_zech_mat_struct)));
    const auto draw = [&field, matrices](long n) {
        for (int i = 0; i < 3; i++) {
            fq_zech_mat_init(&matrices[i], n, n, field);
            for (long r = 0; r < n; r++)
                for (long c = 0; c < n; c++) fq_zech_rand(fq_zech_mat_entry(&matrices[i], r, c), state, field);
        }
    };
    row("FLINT log product", bits, [&](long n) {
        draw(n);
        return [&field, matrices] { fq_zech_mat_mul(&matrices[2], &matrices[0], &matrices[1], field); };
    });
    row("FLINT log inverse", bits, [&](long n) {
        draw(n);
        return [&field, matrices] { fq_zech_mat_inv(&matrices[2], &matrices[0], field); };
    });
}

void rows_of_ntl(int bits, std::initializer_list<long> exponents) {
    NTL::GF2X modulus;
    for (long exponent : exponents) NTL::SetCoeff(modulus, exponent);
    NTL::GF2E::init(modulus);
    static NTL::mat_GF2E left, right, made;
    row("NTL product", bits, [](long n) {
        left = NTL::random_mat_GF2E(n, n), right = NTL::random_mat_GF2E(n, n);
        return [] { NTL::mul(made, left, right); };
    });
    row("NTL inverse", bits, [](long n) {
        left = NTL::random_mat_GF2E(n, n);
        NTL::GF2E determinant;
        return [determinant]() mutable { NTL::inv(determinant, made, left); };
    });
    left.kill(), right.kill(), made.kill();
}

}  // namespace

int main(int count, char **words) {
    samples = count > 1 ? std::atoi(words[1]) : samples;
    seconds = count > 2 ? std::atof(words[2]) : seconds;
    std::printf("%-20s", "n");
    for (long n : SIZES) std::printf(" %9ld", n);
    std::printf("\n");
    rows_of_logarithms(8);
    rows_of_polynomials(8, {8, 4, 3, 1, 0});
    rows_of_ntl(8, {8, 4, 3, 1, 0});
    rows_of_logarithms(16);
    rows_of_polynomials(16, {16, 12, 3, 1, 0});
    rows_of_ntl(16, {16, 12, 3, 1, 0});
    rows_of_polynomials(128, {128, 7, 2, 1, 0});
    rows_of_ntl(128, {128, 7, 2, 1, 0});
}
