/* Compares the functions bf_field_* with NTL's GF2E: 10,000 drawn cases over 60 degrees and moduli, and which moduli are refused. */
#include <NTL/GF2E.h>
#include <NTL/GF2EX.h>
#include <NTL/GF2XFactoring.h>

#include <binary_field.h>
#include <cstdio>
#include <cstdlib>
#include <vector>

using NTL::GF2E;
using NTL::GF2X;

namespace {

int wrong = 0;

bf_u128 words_of(const GF2X &polynomial, long degree) {
    bf_u128 words = {{0, 0}};
    for (long i = 0; i < degree; i++)
        if (NTL::IsOne(NTL::coeff(polynomial, i))) words.words[i / 64] |= uint64_t{1} << i % 64;
    return words;
}

bool are_same(const bf_u128 &left, const bf_u128 &right) {
    return left.words[0] == right.words[0] && left.words[1] == right.words[1];
}

// Fails unless the call succeeded and wrote what NTL has.
void expect(const char *name, long degree, uint32_t status, const std::vector<bf_u128> &found, const std::vector<GF2E> &wanted) {
    for (size_t i = 0; i < wanted.size(); i++)
        if (status != BF_OK || !are_same(found[i], words_of(NTL::rep(wanted[i]), degree))) {
            if (wrong++ < 20) std::printf("check_ntl: bf_field_%s over degree %ld: status %u, place %zu\n", name, degree, status, i);
            return;
        }
}

// A field of the degree by each function, over so many pairs of elements; how many results were compared.
long compare(const GF2X &modulus, long degree, size_t count) {
    bf_field field;
    const bf_u128 tail = words_of(modulus, degree);
    if (bf_field_init(&field, degree, &tail) != BF_OK) {
        std::printf("check_ntl: a modulus of the degree %ld is refused\n", degree);
        wrong++;
        return 0;
    }
    GF2E::init(modulus);
    std::vector<GF2E> x(count), y(count), z(count);
    std::vector<bf_u128> left(count), right(count), found(count);
    for (size_t i = 0; i < count; i++) {
        NTL::random(x[i]);
        NTL::random(y[i]);
        left[i] = words_of(NTL::rep(x[i]), degree);
        right[i] = words_of(NTL::rep(y[i]), degree);
    }
    const bf_u128 *l = left.data(), *r = right.data();
    bf_u128 *f = found.data();
    for (size_t i = 0; i < count; i++) z[i] = x[i] + y[i];
    expect("add", degree, bf_field_add(&field, l, count, r, count, f, count), found, z);
    for (size_t i = 0; i < count; i++) z[i] = x[i] * y[i];
    expect("multiply", degree, bf_field_multiply(&field, l, count, r, count, f, count), found, z);
    for (size_t i = 0; i < count; i++) z[i] = x[i] * y[0];
    expect("multiply_by", degree, bf_field_multiply_by(&field, l, count, r, f, count), found, z);
    for (size_t i = 0; i < count; i++) z[i] = x[i] * x[i];
    expect("square", degree, bf_field_square(&field, l, count, f, count), found, z);
    for (size_t i = 0; i < count; i++) z[i] = NTL::IsZero(x[i]) ? x[i] : NTL::inv(x[i]);
    expect("inverse", degree, bf_field_inverse(&field, l, count, f, count), found, z);
    const uint64_t exponent = 0x9e3779b97f4a7c15;
    for (size_t i = 0; i < count; i++) z[i] = NTL::power(x[i], NTL::conv<NTL::ZZ>("11400714819323198485"));
    expect("power", degree, bf_field_power(&field, l, count, exponent, f, count), found, z);
    for (size_t i = 0; i < count; i++) z[i] = NTL::conv<GF2E>(NTL::trace(x[i]));
    expect("trace", degree, bf_field_trace(&field, l, count, f, count), found, z);
    for (size_t i = 0; i < count; i++) z[i] = NTL::IsZero(y[i]) ? y[i] : x[i] / y[i];
    expect("divide", degree, bf_field_divide(&field, l, count, r, count, f, count), found, z);
    NTL::GF2EX polynomial;
    for (size_t i = 0; i < count; i++) NTL::SetCoeff(polynomial, static_cast<long>(i), x[i]);
    for (size_t i = 0; i < count; i++) z[i] = NTL::eval(polynomial, y[i]);
    expect("evaluate", degree, bf_field_evaluate(&field, l, count, r, count, f, count), found, z);
    std::vector<GF2E> total(1);
    for (size_t i = 0; i < count; i++) total[0] += x[i] * y[i];
    std::vector<bf_u128> sum(1);
    expect("dot_product", degree, bf_field_dot_product(&field, l, count, r, count, sum.data()), sum, total);
    std::vector<bf_u128> squared(count);
    const uint32_t status = bf_field_square_root(&field, l, count, f, count);
    if (bf_field_square(&field, f, count, squared.data(), count) != BF_OK) wrong++;
    expect("square_root", degree, status, squared, x);
    return 10 * static_cast<long>(count) + 1;
}

// Whether a polynomial is told irreducible as NTL tells it.
void compare_irreducible(long degree) {
    GF2X polynomial;
    NTL::random(polynomial, degree);
    NTL::SetCoeff(polynomial, degree);
    if (degree % 2) NTL::SetCoeff(polynomial, 0);
    bf_field field;
    const bf_u128 tail = words_of(polynomial, degree);
    const uint32_t status = bf_field_init(&field, degree, &tail);
    if (status != (NTL::IterIrredTest(polynomial) ? BF_OK : BF_REDUCIBLE)) {
        std::printf("check_ntl: bf_field_init of the degree %ld: status %u\n", degree, status);
        wrong++;
    }
}

}  // namespace

int main() {
    NTL::SetSeed(NTL::ZZ(20261129));
    long cases = 0, fields = 0;
    for (long degree = 1; degree <= 128; degree += degree < 16 ? 1 : 3) {
        GF2X modulus, dense;
        NTL::BuildSparseIrred(modulus, degree);
        NTL::BuildRandomIrred(dense, modulus);
        cases += compare(degree % 2 || degree == 16 ? dense : modulus, degree, 24);
        fields++;
        if (degree % 7 == 0) {
            cases += compare(degree % 2 ? modulus : dense, degree, 24);
            fields++;
        }
        for (int i = 0; i < 40; i++) compare_irreducible(degree);
    }
    std::printf("check_ntl: %ld cases over %ld degrees and moduli, %d wrong\n", cases, fields, wrong);
    return wrong != 0 || cases < 10000 || fields < 60;
}
